#!/usr/bin/env python3
"""The documents name what is there, and name it where it is.

    documents.py             runs all checks; the last line is 'documents: N passed, M failed'
    documents.py --all       prints every failure of a check, not the first few alone
    documents.py --reading   prints the files that the claim's imports reach, with their lines
    documents.py --write     writes the lines, sums and counts of today into the documents first

What is checked:
- every name in backticks is found in the repository (of all pages but docs/PORT.md and docs/DESIGN-PASS.md, which say what
  names were);
- `crate/File` is a file of that crate, and a name with "in `crate/File`" is declared there;
- `crate::module::function`, and `crate::function` of a lib.rt, is that function; in docs/DEMANDS.md and in the same tables of
  the notes on changes none is written shorter, elsewhere `module::function` is enough where one crate has it;
- a definition or a statement in a table is declared in a file that its section names, a proof in the file named with it, and
  what stands as a statement is one;
- no cell of a table holds more than three names;
- every public function has its wrong programs, and every must-fail edit its one row; of the calls that C links the row is that
  of the call of crate bench, whose clauses they have to the letter;
- the README's list of what is to be read has every file that states what the README or docs/DEMANDS.md cites, with all that
  these files import, and no other; the lines of each file, the sums, and which groups the claim needs, are right;
- the functions of each crate, and the must-fail edits, are as many as docs/PROOFS.md says."""
import os
import re
import sys

import programs
from programs import ROOT, Suite

README = "README.md"
DEMANDS = "docs/DEMANDS.md"
WRONG = "docs/WRONG-PROGRAMS.md"
PROOFS = "docs/PROOFS.md"
DOCUMENTS = {README, "examples/README.md", "second/README.md", "compare/README.md"}
# the pages of the port and of the design pass, which say what names were and what they are
PAST = {"docs/PORT.md", "docs/DESIGN-PASS.md"}
CLAIM = "crates/calls/specs/Demand.antt"
SKIPPED = {".git", "target", "build", "out", "__pycache__"}
# crates of programs: their functions have no contracts of their own, other scripts compare what they print
PROGRAMS = {"vectors", "paper"}
# the calls, and the same ones as C links them
CALLS, LINKED = "crates/bench/src/exports.rt", "crates/bench_c/src/lib.rt"
# columns whose names are definitions, in the files that the section or the cell names
DEFINED = {"definition", "statement", "law", "rules", "effect", "on octets", "from octets or numbers", "to octets and effects"}
MOST_NAMES = 3


# ---- the repository


def files():
    """Every file of the repository, with its text."""
    for folder, inner, names in os.walk(ROOT):
        inner[:] = sorted(d for d in inner if d not in SKIPPED)
        for name in sorted(names):
            path = os.path.join(folder, name)
            with open(path, encoding="utf-8", errors="replace") as f:
                yield os.path.relpath(path, ROOT), f.read()


def has_sentences(document):
    """Whether it says where the sentences of a request are met: so do the notes on changes."""
    return document == DEMANDS or re.fullmatch(r"docs/changes/\d+\.md", document) is not None


def documents(texts):
    pages = {p for p in texts if p.startswith("docs/") and p.endswith(".md")} - PAST
    return sorted(p for p in texts if p in DOCUMENTS | pages)


def crates(texts):
    return {p.split("/")[1] for p in texts if p.startswith("crates/")}


def words_of(texts):
    """Every word of the code, the tests and the paths, with the paths themselves."""
    found = set()
    for path, text in texts.items():
        found.add(path)
        found.update(path.split("/"))
        found.add(os.path.splitext(os.path.basename(path))[0])
        if not path.endswith(".md"):
            found.update(re.findall(r"[^\s(){}\[\],;:\"'`]+", text))
            found.update(re.findall(r"\w+", text))
    return found


def is_specs(path):
    return re.match(r"crates/\w+/specs/", path) is not None


def placed(name, texts):
    """The files that `crate/File` stands for: a definition file or a folder of them, a proof file, a module of the crate, a
    must-fail edit."""
    crate, _, rest = name.partition("/")
    ends = ("specs/%s.antt", "%s.antt", "src/%s.rt", "must-fail/%s.edit")
    found = [p for p in ("crates/%s/" % crate + e % rest for e in ends) if p in texts]
    folder = "crates/%s/specs/%s/" % (crate, rest)
    return found + [p for p in texts if p.startswith(folder)]


def declares(path, name, texts):
    """Whether a file declares the name: in antt a law, definition, type, constructor or field; in the code a type, constant or
    field."""
    word = re.escape(name)
    antt = r"^\s*(?:(?:abbrev|unfoldable) )?(?:pub )?(?:(?:record|data) %s(?![\w-])|%s :)" % (word, word)
    code = r"^\s*pub (?:(?:struct|enum|const) %s\b|%s:)" % (word, word)
    return re.search(antt if path.endswith(".antt") else code, texts[path], re.M) is not None


def states(path, name, texts):
    """Whether a definition file has a statement of this name: a definition or a record whose type is Type 0."""
    word = re.escape(name)
    line = r"^\s*(?:abbrev |unfoldable )?pub (?:%s : (?:.* → )?Type 0$|record %s (?:.* )?: Type 0 where)" % (word, word)
    return is_specs(path) and re.search(line, texts[path], re.M) is not None


# ---- functions


def functions(path, texts):
    return re.findall(r"\bfn (\w+)", texts.get(path, ""))


def is_function(name, texts):
    """`crate::module::function`, or `crate::function` of a lib.rt."""
    parts = name.split("::")
    path = "crates/%s/src/%s.rt" % (parts[0], parts[1] if len(parts) == 3 else "lib")
    return len(parts) in (2, 3) and parts[-1] in functions(path, texts)


def is_module(name, texts):
    return "crates/%s.rt" % name.replace("::", "/src/") in texts


def is_short(name, texts):
    """`module::function`, where one crate alone has it."""
    module, _, function = name.partition("::")
    modules = [p for p in texts if p.startswith("crates/") and p.endswith("/src/%s.rt" % module)]
    return sum(function in functions(p, texts) for p in modules) == 1


# ---- the tables of a document


def quoted(text):
    return re.findall(r"`([^`]+)`", text)


def cells(text):
    """The cells of all tables, each with the heading of its column and the files that its section names."""
    heads, named = [], []
    for line in text.split("\n"):
        if line.startswith("#"):
            named = []
        definitions = re.search(r"Definitions: ((?:`[^`]+`(?:, )?)+)\.", line)
        if definitions:
            named = quoted(definitions.group(1))
        if not line.startswith("|"):
            heads = []
        elif not heads:
            heads = [h.strip() for h in line.strip("|").split("|")]
        elif not line.startswith("|--"):
            row = [c.strip() for c in re.split(r"(?<!\\)\|", line.strip("|"))]
            for head, cell in zip(heads, row):
                yield head, cell, named


def names_in(cell, named):
    """The names of a cell that are no paths, each with the files that it is to be in, those named after it with "in" or else
    those of the section; and whether it is "in"."""
    group = r"((?:`[^`/]+`(?:, | and | of )?)+) in `(\w+/[\w/]+)`"
    for names, where in re.findall(group, cell):
        for name in quoted(names):
            yield name, [where], True
    for name in quoted(re.sub(group, "", cell)):
        if "/" not in name and "." not in name:
            yield name, named, False


# ---- checks of one document


def unknown(document, texts, words):
    """Names in backticks that stand nowhere. Of a name with arguments or a type, the first word counts; of a path through
    modules or fields, the last. `name-..` stands for all that begin so, and NAME for any."""
    text = re.sub(r"^    [^\n]*$|```.*?```", "", texts[document], flags=re.M | re.S)
    for name in sorted(set(quoted(text))):
        parts = [p for p in re.split(r"[\s,()=<>]+", name) if p]
        word = parts[0].rstrip(":") if parts else ""
        start = word[: -len("..")] if word.endswith("..") else None
        last = re.split(r"::|\.|/", word.rstrip("./"))[-1]
        known = word in words or word.strip("./") in words or last in words or "NAME" in word or re.fullmatch(r"[\W\d]*", word)
        folder = any("/" + word.strip("./") + "/" in "/" + p for p in texts)
        if not (known or folder or (start and any(w.startswith(start) for w in words))):
            yield "`%s` is nowhere" % name


def missing_files(document, texts):
    """`crate/File` that is no file and no folder of its crate."""
    known = crates(texts)
    for name in sorted(set(re.findall(r"`([a-z_]+/\w+(?:/\w+)*)`", texts[document]))):
        if name.split("/")[0] in known and not placed(name, texts) and not any(("/%s/" % name) in p for p in texts):
            yield "there is no file `%s`" % name


def missing_functions(document, texts):
    """Names with :: that are no function and no module there."""
    for name in sorted(set(re.findall(r"`([a-z_]+(?:::[a-z_]+)+)`", texts[document]))):
        full = is_function(name, texts) or is_module(name, texts)
        if not full and (document == DEMANDS or not is_short(name, texts)):
            yield "there is no function `%s`" % name


def is_defined(head, named, document):
    """Whether names of the column are to be declared in files that are named: anywhere, where the section names some."""
    return head in DEFINED if has_sentences(document) else head == "definition" and bool(named)


def misplaced(document, texts):
    """Names of tables that are not declared in the file which the document gives for them, or for which it gives none."""
    for head, cell, named in cells(texts[document]):
        for name, where, said in names_in(cell, named):
            if head == "function" and has_sentences(document):
                if not is_function(name, texts):
                    yield "there is no function `%s`" % name
            elif head == "proved by" and has_sentences(document) and not said:
                yield "the file of the proof `%s` is not named" % name
            elif said or is_defined(head, named, document):
                if not any(declares(p, name, texts) for w in where for p in placed(w, texts)):
                    yield "`%s` is not declared in %s" % (name, ", ".join(where) or "any file that is named")


def unstated(document, texts):
    """Cells under "statement" in which no name is a statement."""
    for head, cell, named in cells(texts[document]):
        if head == "statement" and quoted(cell) and has_sentences(document):
            pairs = [(p, name) for name, where, _ in names_in(cell, named) for w in where for p in placed(w, texts)]
            if not any(states(p, name, texts) for p, name in pairs):
                yield "there is no statement in: %s" % cell


def overfull(document, texts):
    """Cells with too many names."""
    for _, cell, _ in cells(texts[document]):
        names = quoted(re.sub(r" in `\w+/[\w/]+`", "", cell))
        if len(names) > MOST_NAMES + 1 or len([n for n in names if "/" not in n]) > MOST_NAMES:
            yield "a cell has too many names: %s" % cell


# ---- wrong programs


def public_functions(texts):
    """The names by which a row may call a public function that has a contract: in full, or by its module alone."""
    for path in sorted(texts):
        parts = path.split("/")
        if parts[0] == "crates" and parts[2] == "src" and path.endswith(".rt") and parts[1] not in PROGRAMS:
            crate, module = parts[1], os.path.splitext(parts[-1])[0]
            for name in re.findall(r"^pub (?:extern \"C\" )?fn (\w+)", texts[path], re.M):
                if path == LINKED:
                    yield {"%s::%s" % (crate, name), name}
                elif module == "lib":
                    yield {"%s::%s" % (crate, name)}
                else:
                    short = name if module == "exports" else "%s::%s" % (module, name)
                    yield {"%s::%s::%s" % (crate, module, name), short}


def unruled(texts):
    """Public functions without a row of wrong programs."""
    firsts = set(re.findall(r"^\| `([^`]+)` \|", texts[WRONG], re.M))
    for names in public_functions(texts):
        if not names & firsts:
            yield "there is no row for %s" % max(names, key=len)


def contracts(path, texts):
    """The arguments, the result and the clauses of the public functions of a module, by name."""
    found = re.findall(r'^pub (?:extern "C" )?fn (\w+)(.*?)\n\{$', texts.get(path, ""), re.M | re.S)
    return {name: re.sub(r"(?<=\() |,? (?=\))", "", re.sub(r"\s+", " ", said)) for name, said in found}


def otherwise_linked(texts):
    """Calls that C links under other clauses, and calls that it cannot link."""
    calls, linked = contracts(CALLS, texts), contracts(LINKED, texts)
    for name in sorted(calls.keys() | linked.keys()):
        if calls.get(name) != linked.get(name):
            yield "%s is linked as %s, and is %s" % (name, linked.get(name), calls.get(name))


def edits(texts):
    for path in sorted(texts):
        found = re.fullmatch(r"crates/(\w+)/must-fail/(\w+)\.edit", path)
        if found:
            yield "%s/%s" % found.groups()


def unlogged(texts):
    """Must-fail edits that have not one row: one that begins with the edit or, where none does, one that names it."""
    rows = [line for line in texts[WRONG].split("\n") if line.startswith("|")]
    for edit in edits(texts):
        named = [row for row in rows if "`%s`" % edit in row]
        first = [row for row in named if row.startswith("| `%s` |" % edit)]
        if len(first or named) != 1:
            yield "%s has %d rows" % (edit, len(first or named))


# ---- what is to be read


def imported(text, texts):
    """The definition files that a file names. Kinds files only name declared types."""
    for crate, module in re.findall(r"^(?:pub )?use Rattle\.(\w+)\.specs\.([\w.]+)", text, re.M):
        parts = module.rstrip(".").split(".")
        for end in range(len(parts), 0, -1):
            path = "crates/%s/specs/%s.antt" % (crate, "/".join(parts[:end]))
            if path in texts:
                if not path.endswith("/Kinds.antt"):
                    yield path
                break


def reached(start, texts):
    """A file with all that its imports reach."""
    found, left = set(), [start]
    while left:
        path = left.pop()
        if path not in found:
            found.add(path)
            left += imported(texts[path], texts)
    return found


def cited(texts):
    """The statements that the README cites under "What is proved", and those in columns headed "statement" of docs/DEMANDS.md
    and of the notes on changes; each with the files that may have it."""
    proved = re.search(r"^## What is proved$(.*?)^## ", texts[README], re.M | re.S)
    for name in quoted(proved.group(1) if proved else ""):
        yield name, list(texts)
    for document in texts:
        if has_sentences(document):
            for head, cell, named in cells(texts[document]):
                if head == "statement":
                    for name, where, _ in names_in(cell, named):
                        yield name, [p for w in where for p in placed(w, texts)]


def stating(texts, stated):
    """The files of these statements. Of a name that several files have, those in the list are enough."""
    for name, paths in cited(texts):
        found = [p for p in paths if states(p, name, texts)]
        yield from [p for p in found if p in stated] or found


def unfounded(texts):
    """Names cited as statements, by their capital letter, that no file states."""
    for name in sorted({name for name, paths in cited(texts) if not any(states(p, name, texts) for p in paths)}):
        if name[0].isupper():
            yield "`%s` is cited, and no file states it" % name


def lines(path, texts):
    return texts[path].count("\n")


def claim_size(texts):
    claim = reached(CLAIM, texts)
    return "%d files are to be read, %s lines" % (len(claim), format(sum(lines(p, texts) for p in claim), ","))


LIST_GROUP = r"^- ([\w ,]+), (\d+) lines: (.*)$"
LIST_FOLDER = r"`([\w/]+)`: ((?:\w+ \(\d+\)(?:, )?)+)"
LIST_FILE = r"(\w+) \((\d+)\)"


def listed_path(folder, name):
    return "crates/%s/%s.antt" % (folder, name)


def listed(texts):
    """The README's groups: (stated sum, {file: stated lines})."""
    for _, total, body in re.findall(LIST_GROUP, texts[README], re.M):
        group = {}
        for folder, names in re.findall(LIST_FOLDER, body):
            group.update((listed_path(folder, name), int(count)) for name, count in re.findall(LIST_FILE, names))
        yield int(total), group


def missing_reading(texts):
    """Files that the list lacks, and files in it that nothing asks for."""
    if "\n## What is proved\n" not in texts[README]:
        yield "the README has no section \"What is proved\""
    stated = {path for _, group in listed(texts) for path in group}
    wanted = reached(CLAIM, texts)
    for path in stating(texts, stated):
        wanted |= reached(path, texts)
    for path in sorted(wanted - stated):
        yield "%s (%d) is not in the list" % (path, lines(path, texts))
    for path in sorted(stated - wanted):
        yield "%s is in the list, and nothing cites or imports it" % path


def wrong_lines(texts):
    """Lines and sums of the list that are not those of today."""
    whole = 0
    for total, group in listed(texts):
        whole += total
        if total != sum(group.values()):
            yield "a group of the list says %d lines and has %d" % (total, sum(group.values()))
        for path, count in group.items():
            if path not in texts:
                yield "%s is not there" % path
            elif count != lines(path, texts):
                yield "%s has %d lines, the list says %d" % (path, lines(path, texts), count)
    if "Together %d lines" % whole not in texts[README]:
        yield "the groups of the list have %d lines together" % whole


def wrong_claim(texts):
    """The groups of the list up to the claim's own are what the claim needs, and docs/DEMANDS.md says how much that is."""
    groups = [group for _, group in listed(texts)]
    last = max((i for i, group in enumerate(groups) if CLAIM in group), default=-1)
    for path in sorted(reached(CLAIM, texts) ^ {path for group in groups[: last + 1] for path in group}):
        yield "%s is behind the claim in the list and the claim needs it, or the other way about" % path
    if claim_size(texts) not in texts[DEMANDS]:
        yield "%s is to say: %s" % (DEMANDS, claim_size(texts))


# ---- how many


COUNTED = r"^\| (\w+) \| (\d+|-) \| (\d+ s|-) \|$"
EDITED = r"the (\d+) edits"


def function_count(crate, texts):
    """As the table has it: - for none."""
    paths = [p for p in texts if p.startswith("crates/%s/src/" % crate)]
    return str(sum(len(functions(p, texts)) for p in paths) or "-")


def wrong_counts(texts):
    """Crates whose functions, and must-fail edits, are not as many as the page on proofs says."""
    said = {crate: count for crate, count, _ in re.findall(COUNTED, texts[PROOFS], re.M)}
    for crate in sorted(crates(texts) | set(said)):
        if said.get(crate) != function_count(crate, texts):
            yield "%s has %s functions, %s says %s" % (crate, function_count(crate, texts), PROOFS, said.get(crate))
    kept = str(len(list(edits(texts))))
    if set(re.findall(EDITED, texts[PROOFS])) != {kept}:
        yield "there are %s edits" % kept


def counts_written(texts):
    """The page on proofs with the counts of today."""
    page = re.sub(
        COUNTED, lambda row: "| %s | %s | %s |" % (row[1], function_count(row[1], texts), row[3]), texts[PROOFS], flags=re.M
    )
    return re.sub(EDITED, "the %d edits" % len(list(edits(texts))), page)


# ---- the lines of today, written


def group_written(match, texts):
    """A group of the list with the lines of today, and their sum."""
    total = 0

    def file(folder, entry):
        nonlocal total
        path = listed_path(folder, entry.group(1))
        count = lines(path, texts) if path in texts else int(entry.group(2))
        total += count
        return "%s (%d)" % (entry.group(1), count)

    def folder(part):
        return "`%s`: %s" % (part.group(1), re.sub(LIST_FILE, lambda entry: file(part.group(1), entry), part.group(2)))

    body = re.sub(LIST_FOLDER, folder, match.group(3))
    return "- %s, %d lines: %s" % (match.group(1), total, body)


def write(texts):
    """The README's list, the size of the claim in docs/DEMANDS.md and the counts of docs/PROOFS.md, as of today."""
    readme = re.sub(LIST_GROUP, lambda match: group_written(match, texts), texts[README], flags=re.M)
    whole = sum(int(total) for _, total, _ in re.findall(LIST_GROUP, readme, re.M))
    readme = re.sub(r"Together \d+ lines", "Together %d lines" % whole, readme)
    demands = re.sub(r"\d+ files are to be read, [\d,]+ lines", claim_size(texts), texts[DEMANDS])
    for path, text in ((README, readme), (DEMANDS, demands), (PROOFS, counts_written(texts))):
        with open(os.path.join(ROOT, path), "w", encoding="utf-8") as f:
            f.write(text)


# ---- all of it


def places(document, texts):
    """What the document does not name where it is; each once."""
    parts = (missing_files, missing_functions, misplaced, unstated)
    return list(dict.fromkeys(wrong for part in parts for wrong in part(document, texts)))


def check(texts):
    suite, words = Suite("documents"), words_of(texts)
    for document in documents(texts):
        suite.check(document + ", names", list(unknown(document, texts, words)))
        suite.check(document + ", places", places(document, texts))
        suite.check(document + ", cells", list(overfull(document, texts)))
    suite.check("wrong programs, functions", list(unruled(texts)))
    suite.check("wrong programs, edits", list(unlogged(texts)))
    suite.check("the calls that C links", list(otherwise_linked(texts)))
    suite.check("statements that are cited", list(unfounded(texts)))
    suite.check("the list of what is to be read, files", list(missing_reading(texts)))
    suite.check("the list of what is to be read, lines", list(wrong_lines(texts)))
    suite.check("the list of what is to be read, claim", list(wrong_claim(texts)))
    suite.check("functions and edits, counted", list(wrong_counts(texts)))
    return suite.end()


def main():
    texts = dict(files())
    if "--write" in sys.argv:
        write(texts)
        texts = dict(files())
    if "--all" in sys.argv:
        programs.TOLD = None
    if "--reading" in sys.argv:
        for path in sorted(reached(CLAIM, texts)):
            print(path, lines(path, texts))
        return 0
    return check(texts)


if __name__ == "__main__":
    sys.exit(main())
