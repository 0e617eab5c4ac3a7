#!/usr/bin/env python3
"""Lists the places of crates/*/src that docs/DESIGN-PASS.md counts, a line each: the point, the file and line, what stands there.

    python3 tools/places.py [COMMIT]      the places of the working tree, or of a commit
    python3 tools/places.py -n [COMMIT]   their numbers alone
"""
import collections
import re
import subprocess
import sys

# 1. Own enums, fields that are flags, and numbers that stand for none or for a refusal (what a comment says of a result).
ENUM = re.compile(r'^\s*(?:pub(?:\(crate\))? )?enum (\w+)')
FLAG = re.compile(r'^\s*(?:pub )?(\w+): bool,$')
CODE = re.compile(r'^\s*//.*(0 for none|0 for octets that are none|; 0 where|; 0, with the slot|length 0 is no|\d+ for any other|\d+ for an ID|fourteen if'
                  r'|; 8 where none|0 for a call not taken|answer is 2 for|The number for|the number of a rule|with an impossible)')
# 3. Loops, and lists that are written out element by element.
LOOP = re.compile(r'^\s*(while|loop)\b')
UNROLLED = re.compile(r'^\s*let (?:mut )?([abc]0?|p0) = .*(\[0\]|, 0\)|, at\)|\(conns, 0\)|noticed_at\(conns, 0\)|credited_at\(conns, m, 0\));$')
# 4. Predicates and conversions whose body is a match with one literal an arm; comparisons of fields one by one.
ARM = re.compile(r'^\s*\w+(?:::\w+)*(?:\([_, ]*\))? => (true|false),$')
NUMBER_ARM = re.compile(r'^\s*(?:\d+|\w+::\w+(?:\([_, ]*\))?) => (?:\d+|\w+::\w+),$')
FIELDS = re.compile(r'\((\w+)\.(\w+) == (\w+)\.(\w+)\) & \(')
# 7. Switches on the number of a step.
STEP = re.compile(r'^\s*if i (?:==|<) [A-Z]+')
FN = re.compile(r'^\s*(?:pub )?fn (\w+)')


def files(commit):
    if commit:
        names = subprocess.run(['git', 'ls-tree', '-r', '--name-only', commit, 'crates'], capture_output=True, text=True, check=True).stdout.split('\n')
        for name in names:
            if '/src/' in name and name.endswith('.rt'):
                yield name, subprocess.run(['git', 'show', f'{commit}:{name}'], capture_output=True, text=True, check=True).stdout
    else:
        import pathlib
        for path in sorted(pathlib.Path('crates').glob('*/src/**/*.rt')):
            yield str(path), path.read_text()


def functions(text):
    """Each function of a file: its line, name, and its own lines."""
    lines = text.split('\n')
    starts = [i for i, line in enumerate(lines) if FN.match(line)]
    for at, nxt in zip(starts, starts[1:] + [len(lines)]):
        yield at + 1, FN.match(lines[at]).group(1), lines[at:nxt]


def clauses(lines):
    """The parts of the `requires` clauses, by what they say: a name of a parameter aside."""
    for line in lines:
        m = re.match(r'^\s*requires(?: \w+)? \{ (.*) \}$', line)
        if m:
            for part in re.split(r' × ', m.group(1)):
                part = part.strip()
                while part.startswith('(') and part.endswith(')'):
                    part = part[1:-1]
                yield part


def shape(lines):
    """A body without its names and numbers, to find functions that differ in them alone."""
    body = '\n'.join(lines)
    body = body[body.find('\n{') + 2:body.rfind('\n}')]
    body = re.sub(r'//.*', '', body)
    body = re.sub(r'"[^"]*"', '"s"', body)
    body = re.sub(r'\b[A-Za-z_]\w*\b', lambda m: m.group(0) if m.group(0) in KEEP else 'x', body)
    body = re.sub(r'\b\d\w*\b', '0', body)
    return re.sub(r'\s+', ' ', body).strip()


KEEP = {'if', 'else', 'let', 'mut', 'return', 'while', 'for', 'in', 'match', 'as', 'fn', 'true', 'false'}


def places(commit):
    found = collections.defaultdict(list)
    clause = collections.defaultdict(list)
    bodies = collections.defaultdict(list)
    for name, text in files(commit):
        lines = text.split('\n')
        for i, line in enumerate(lines, 1):
            where = f'{name}:{i}'
            for point, pattern in ((1, ENUM), (1, FLAG), (1, CODE), (3, LOOP), (3, UNROLLED), (4, FIELDS), (7, STEP)):
                if pattern.search(line):
                    found[point].append(f'{where}: {line.strip()}')
        for at, fn, body in functions(text):
            arms = [line for line in body if ARM.match(line)]
            numbers = [line for line in body if NUMBER_ARM.match(line)]
            if len(arms) >= 2:
                found[4].append(f'{name}:{at}: fn {fn}, {len(arms)} arms of true and false')
            if len(numbers) >= 3:
                found[4].append(f'{name}:{at}: fn {fn}, {len(numbers)} arms of one literal')
            for part in clauses(body):
                clause[(name.split('/')[1], part)].append(f'{name}:{at} {fn}')
            s = shape(body)
            if len(s) > 60:
                bodies[s].append(f'{name}:{at} {fn}')
            for line in body:
                if re.search(r'\w+: \[\w+; \d\],?$', line):
                    found[6].append(f'{name}:{at}: {line.strip()}')
        for i, line in enumerate(lines, 1):
            if re.match(r'^\s*(?:pub )?(?:count|len|held|size): usize,$', line):
                found[6].append(f'{name}:{i}: {line.strip()}')
    for s, where in sorted(bodies.items(), key=lambda x: x[1]):
        if len(where) > 1:
            found[2].append(' = '.join(where))
    for (crate, part), where in sorted(clause.items()):
        if len(where) >= 3:
            found[5].append(f'{crate}: {part}: {len(where)} functions')
    return found


def main():
    words = sys.argv[1:]
    short = '-n' in words
    words = [w for w in words if w != '-n']
    found = places(words[0] if words else None)
    for point in range(1, 8):
        if short:
            print(f'{point}: {len(found[point])}')
        else:
            for line in found[point]:
                print(f'{point} {line}')


main()
