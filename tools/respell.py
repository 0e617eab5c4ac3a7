#!/usr/bin/env python3
"""Brings this repository's own names in .antt files, and the clauses that cite them, to snake case: words and lemmas
`placeOf`, `place-of` become `place_of`. Types, modules and names of libraries stay, and so do functions, strings and tests. The
lines of must-fail edits are turned alike. A law that would fall together with the word that it is about gets `_law` after its name.

usage: python3 tools/respell.py [--dry]     at the top of the repository, once, right after port.py
"""
import collections
import os
import re
import sys

WORD = re.compile(r"[^\s.,(){}\[\];:\"`⟦⟧⟨⟩←|/*+∙∷≡≤<&=]+")
DECL = re.compile(r"^(\s*)((?:abbrev|unfoldable|pub|opaque|irreducible|let)\s+)*([^\s:.,(){};]+)\s*:(?!=)\s")
HEAD = re.compile(r"^(?:abbrev |unfoldable |pub )*(?:record|data)\s")
USE = re.compile(r"^\s*(?:pub )?(?:ghost )?use\s+([^\s{;]+?)(?:\.\{([^}]*)\})?(?:\s+as\s+\S+)?;?\s*$")


def snake(n):
    n = re.sub(r"(?<=[a-z0-9])-(?=[a-z0-9])", "_", n)
    head = re.match(r"^[a-z][A-Za-z0-9_]*", n)
    if head:
        n = re.sub(r"(?<=[a-z0-9])([A-Z]+)(?=[a-z0-9_]|$)", lambda m: "_" + m[1].lower(), head[0]) + n[head.end():]
        n = re.sub(r"(?<=[a-z0-9])-(?=[a-z0-9])", "_", n)
    return n


def files(end):
    for folder, dirs, names in os.walk("crates"):
        dirs[:] = sorted(d for d in dirs if d != "out")
        for f in sorted(names):
            if f.endswith(end):
                yield os.path.join(folder, f)


def own(module, crates):
    m = re.match(r"Rattle\.(\w+)\.", module + ".")
    return bool(m) and m[1] in crates


def imports(text, crates):
    """Names brought in from libraries, and from this repository."""
    lib, mine = set(), set()
    for line in text.splitlines():
        m = USE.match(line)
        if m:
            (mine if own(m[1], crates) else lib).update(re.findall(r"[^\s,]+", m[2] or ""))
    return lib, mine


def declared(path, text):
    """Names that a file declares: at its margin, fields, constructors, local functions. Goals of Proof.antt are not its own."""
    for line in text.splitlines():
        if line.lstrip().startswith("--") or HEAD.match(line):
            continue
        m = DECL.match(line)
        if m and not re.match(r"^.*:\s*tie\.", line):
            yield m[3], bool(m[1])


def main():
    dry = "--dry" in sys.argv
    crates = {c for c in os.listdir("crates") if os.path.isdir(os.path.join("crates", c, "src"))}
    antt = {p: open(p, encoding="utf-8").read() for p in files(".antt")}
    rust = {p: open(p, encoding="utf-8").read() for p in files(".rt")}
    edits = {p: open(p, encoding="utf-8").read() for p in files(".edit")}
    fns = {n for t in rust.values() for n in re.findall(r"\bfn (\w+)", t)}
    names, fields = set(), set()
    for p, t in antt.items():
        for n, inner in declared(p, t):
            if snake(n) != n:
                names.add(n)
                if inner:
                    fields.add(n)
    steps = {f.replace("_", "-") for f in fns}
    # names that would fall together
    to = collections.defaultdict(set)
    for n in names:
        to[snake(n)].add(n)
    # what stands already in the new spelling, brought in from libraries or declared here
    libs, every_word = set(), set()
    for p, t in antt.items():
        libs |= imports(t, crates)[0]
        every_word |= {n for n, _ in declared(p, t)} - names
    # a law that would fall together with the word that it is about: it is called the word's law
    new = {n: snake(n) for n in names}
    for s, ns in sorted(to.items()):
        words = sorted(n for n in ns if re.search(r"[A-Z]", n))
        laws = sorted(ns - set(words))
        if len(ns) > 1 or (laws and s in every_word):
            for n in laws:
                new[n] = s + "_law"
            print("law:", s, *sorted(ns))
        if len(words) > 1 or len(laws) > 1:
            print("together:", s, *sorted(ns))
    for n in sorted(names):
        if new[n] in libs:
            print("library:", n, new[n])
    for p, t in rust.items():
        for head in re.findall(r"fn \w+[^{;]*\{[^{]*", t):
            taken = set(re.findall(r"(\w+)\s*:", head))
            for n in set(WORD.findall(head)) & names:
                if new[n] in taken:
                    print("hidden:", p, n, new[n])
    if dry:
        print(len(names), "names,", len(fields), "of them inner")
        for n in sorted(names)[:2000:40]:
            print("  ", n, snake(n))
    changed = 0
    for p, t in {**antt, **rust, **edits}.items():
        lib, _ = imports(t, crates)
        proof = p.endswith("Proof.antt")
        goals = set(re.findall(r"(?m)^(?:abbrev |pub )*(\S+) : tie\.", t)) if proof else set()

        out = []
        for line in t.splitlines(keepends=True):
            if p.endswith(".rt") and '"' in line or p.endswith(".edit") and not line.startswith(("old:", "new:")):
                out.append(line)
                continue
            u = USE.match(line)
            if u and not own(u[1], crates):
                out.append(line)
                continue
            if proof and re.search(r"tie\.(Need|At|invariant|decreases)-", line):
                out.append(line)
                continue

            def turn_line(m, line=line):
                n = m[0]
                if n not in names or n in lib or (proof and n in goals):
                    return n
                before = line[m.start() - 1] if m.start() else ""
                if before == "." and proof and not re.search(r"[A-Z]", n) and (n not in fields or re.sub(r"\d+$", "", n) in steps):
                    return n
                return new[n]

            out.append(WORD.sub(turn_line, line))
        text = "".join(out)
        if text != t:
            changed += 1
            if not dry:
                with open(p, "w", encoding="utf-8") as f:
                    f.write(text)
    print(len(names), "names,", changed, "files")


if __name__ == "__main__":
    main()
