#!/usr/bin/env python3
"""What front ends outside C, and builds, go by: the header's version, its table of the word's bits and its constants of messages;
the shared object's name, the file for pkg-config, and the programs of docs/FRONT-ENDS.md in Python and Rust.

    bindings.py           runs all tests; the last line is 'bindings: N passed, M failed'
    bindings.py --write   notes today's interface in tests/data/interface.txt, once its version has been raised

tests/data/interface.txt has the version with all that it stands for: the header's numbers, the word's bits and the calls. What is
changed or gone there asks for another first part of the version, what is added for another second part."""
import os
import re
import shutil
import subprocess
import sys
import tempfile
from pathlib import Path

from programs import PATIENCE, ROOT, Suite

HEADER = ROOT / "include" / "nci_bench.h"
NAMES, FIELDS, TYPES = "crates/state/src/names.rt", "crates/state/src/fields.rt", "crates/packets/specs/Types.antt"
WORD, TABLE, FRONT = "crates/calls/specs/Word.antt", "crates/config/specs/Table.antt", "front/parameter.c"
NOTED = ROOT / "tests" / "data" / "interface.txt"
PAGE = ROOT / "docs" / "FRONT-ENDS.md"
LIB = ROOT / "build" / "lib"


# ---- the header, read


def defines(header):
    """The numbers of the header by name."""
    return {name: int(said, 0) for name, said in re.findall(r"^#define (NCI_\w+) (0x[0-9A-F]+|\d+)u\b", header, re.M)}


def version(header):
    """Both parts of the version, and the number."""
    found = re.search(r'^#define NCI_BENCH_VERSION_STRING "(\d+)\.(\d+)"$', header, re.M)
    return (int(found[1]), int(found[2]), defines(header).get("NCI_BENCH_VERSION")) if found else None


def word_table(header):
    """The rows of the table of the word's bits: the first bit, the last, and what they are."""
    comment = header.partition("Its bits, for languages")[2].partition("*/")[0]
    rows = re.findall(r"^ \*   (\d+)(?: to (\d+))? +(\S.*)$", comment, re.M)
    return [(int(first), int(last or first), text.strip()) for first, last, text in rows]


def word_functions(header):
    """What the functions of the word take: the first bit and the last, by name."""
    form = r"nci_word_(\w+)\(uint64_t word\) \{ return \(\w+\)\(word (?:>> (\d+) )?& (0x[0-9A-F]+|1)u\); \}"
    return {name: (int(at or 0), int(at or 0) + int(mask, 0).bit_length() - 1) for name, at, mask in re.findall(form, header)}


def calls(header):
    """The declarations of the calls, each on one line."""
    return [re.sub(r"\s+", " ", call) for call in re.findall(r"^uint64_t nci_\w+\([^)]*\);", header, re.M)]


# ---- constants


# groups of names.rt whose names have a word more in the header
PREFIXES = {"statuses": "STATUS_", "rf technology and mode": "MODE_"}
# of the header, what stands there for messages
OF_MESSAGES = (
    r"NCI_(?:(?:GID|OID|MT|STATUS|MODE|AT|LENGTH|SIZE|TO|PA|PB|PF|PI|PN|PV|PACM)_\w+"
    r"|FRAME_INTERFACE|LOOPBACK|MORE_FOLLOW|\w+_REQUEST|LINK_LOSS|HEADER_SIZE)"
)
LIMITS = {"NCI_GID_MAX", "NCI_OID_MAX"}


def due_constants(texts):
    """The constants that the header is to have, from the code and the definitions."""
    due = {"NCI_HEADER_SIZE": 3}
    for heading, body in re.findall(r"^// ([^\n]*)\n((?:pub const [^\n]*\n\n?)+)", texts[NAMES], re.M):
        prefix = next((p for start, p in PREFIXES.items() if heading.lower().startswith(start)), "")
        for name, said in re.findall(r"const (\w+): u8 = (\w+);", body):
            due["NCI_" + prefix + name.removeprefix(prefix)] = int(said, 0)
    for name, said in re.findall(r"^pub const (\w+): usize = (\d+);", texts[FIELDS], re.M):
        kind = re.fullmatch(r"(\w+?)_(LENGTH|SIZE)", name)
        at = f"NCI_AT_{name}" if not kind or "PARAMS" in name else f"NCI_{kind[2]}_{kind[1]}"
        due[at] = int(said)
    for name, said in re.findall(r"^mt_(\w+) = (\d+)$", texts[TYPES], re.M):
        if name != "rfu":
            due[f"NCI_MT_{name.upper()}"] = int(said)
    return due | {f"NCI_{name}": number for name, number, _ in parameters(texts)}


# a row of the table: ID, place, least and greatest length, default, values, name
ROW = r"row (0x\w\w) \d+ (\d+) (\d+) (0x\w\w) (?:\(Range (0x\w\w) (0x\w\w)\)|(BitRates)) +-- (\w+)$"


def parameters(texts):
    """The configuration parameters by their table: name, ID, and what the header says of the value."""
    for number, least, most, default, low, high, rates, name in re.findall(ROW, texts[TABLE], re.M):
        low, high, default = low[2:], high[2:], default[2:]
        between = "or" if rates or int(high, 16) - int(low, 16) == 1 else "to"
        said = "00 to 06, 20, or 80 to FE" if rates else "any" if (low, high) == ("00", "FF") else f"{low} {between} {high}"
        if least != most:
            said, default = f"{least} to {most} octets, {said}", "none"
        yield name, int(number, 0), f"{said}; by default {default}"


def names_differ(texts):
    """The front end names the parameters of the table, in its order."""
    said = re.findall(r'^    \{NCI_(\w+), "(\w+)", ', texts[FRONT], re.M)
    due = [(name, name) for name, _, _ in parameters(texts)]
    if said != due:
        yield f"the front end names {said}, the table {due}"


def constants_differ(texts):
    found = {name: n for name, n in defines(texts["header"]).items() if re.fullmatch(OF_MESSAGES, name) and name not in LIMITS}
    due = due_constants(texts)
    for name in sorted(found.keys() | due.keys()):
        if found.get(name) != due.get(name):
            yield f"{name} is {found.get(name)}, defined as {due.get(name)}"
    said = dict(re.findall(r"^#define NCI_(\w+) 0x\w\wu +/\* (.*; by default .*) \*/$", texts["header"], re.M))
    values = {name: words for name, _, words in parameters(texts)}
    if said != values:
        yield f"values of parameters are {said}, defined as {values}"


# ---- the word


# the functions by the definitions of Word; the answer has the low eight bits
UNITS = {
    "dropped": "drop_bit",
    "handed_out": "handed_bit",
    "length": "length_unit",
    "put_down": "down_unit",
    "put_up": "up_unit",
    "moves": "down_unit",
    "rfu": "rfu_unit",
}
# the row that is another reading of bits, which others have too
OF_RUN = "of nci_run"


def word_differs(texts):
    """The table has all 64 bits in order, those of run once more, a row for each function and 0 elsewhere; the functions take
    what is defined."""
    table, taken = word_table(texts["header"]), word_functions(texts["header"])
    bits = [bit for first, last, text in table if not text.startswith(OF_RUN) for bit in range(first, last + 1)]
    if bits != list(range(64)):
        yield f"the table has bits {bits}"
    if sorted((first, last) for first, last, text in table if text != "0") != sorted(taken.values()):
        yield f"the table has {table}, the functions {taken}"
    units = dict(re.findall(r"^(\w+(?:_bit|_unit)) = (\d+)$", texts[WORD], re.M))
    for name in sorted(taken.keys() | UNITS.keys()):
        unit = 1 if name == "answer" else int(units.get(UNITS.get(name), 0))
        if name not in taken or 1 << taken[name][0] != unit:
            yield f"{name} starts at {taken.get(name)}, and is defined with {unit}"
    read = re.search(r"^moves_in w = w / (\w+) % (\d+)$", texts[WORD], re.M)
    moves = taken.get("moves", (0, 0))
    if read is None or (read[1], int(read[2])) != (UNITS["moves"], 1 << moves[1] - moves[0] + 1):
        yield f"moves are read from bits {moves}, and defined as {read and read[0]}"


# ---- the version


def interface(header):
    """What the version stands for, a line each."""
    numbers = [f"{name} {value}" for name, value in sorted(defines(header).items()) if name != "NCI_BENCH_VERSION"]
    bits = [f"bits {first} to {last}: {text}" for first, last, text in word_table(header)]
    return [*numbers, *bits, *sorted(calls(header))]


def version_differs(header, noted):
    """The version is written in both forms, and it is that of the interface that is noted, or was raised as far as it must."""
    now = version(header)
    if now is None or now[2] != 100 * now[0] + now[1]:
        yield f"NCI_BENCH_VERSION and NCI_BENCH_VERSION_STRING are {now}"
        return
    said = re.match(r"version (\d+)\.(\d+)\n", noted)
    before, today = noted.splitlines()[1:], interface(header)
    gone, added = [line for line in before if line not in today], [line for line in today if line not in before]
    old = (int(said[1]), int(said[2]))
    due = (old[0] + 1, 0) if gone else (old[0], old[1] + 1) if added else old
    if now[:2] != due:
        yield f"the version is {now[0]}.{now[1]}, due is {due[0]}.{due[1]}: changed or gone {gone[:3]}, added {added[:3]}"
    elif due != old:
        yield f"version {due[0]}.{due[1]} is not noted; bindings.py --write notes it"


def write():
    header = HEADER.read_text()
    wrong = [text for text in version_differs(header, NOTED.read_text())] if NOTED.exists() else []
    if any("is not noted" not in text for text in wrong):
        print(*wrong, sep="\n")
        return 1
    first, second, _ = version(header)
    NOTED.write_text("\n".join([f"version {first}.{second}", *interface(header)]) + "\n")
    return 0


# ---- that a change is noticed


def unnoticed_changes(texts):
    """Numbers of the header's constants and of the table that can be changed unnoticed."""
    header = texts["header"]
    for found in re.finditer(rf"^#define (?:{OF_MESSAGES}) (\w+)u|^ \*   (\d+)(?: to \d+)?  ", header, re.M):
        name = found[0].split()[1]
        group = 1 if found[1] else 2
        if name in LIMITS or (group == 2 and not header.find("Its bits") < found.start() < header.find("nci_word_answer(")):
            continue
        start, end = found.span(group)
        other = texts | {"header": header[:start] + str(int(found[group], 0) + 1) + header[end:]}
        if not (list(constants_differ(other)) or list(word_differs(other))):
            yield found[0]


def unraised(header, noted):
    """Changes that are to ask for another version, and do not."""
    first, second, number = version(header)
    parts = {
        "a call changed": (header.replace("uint8_t conn);", "uint16_t conn);", 1), "first"),
        "a call gone": (re.sub(r"^uint64_t nci_read\([^)]*\);", "", header, flags=re.M), "first"),
        "the record changed": (re.sub(r"(?<=NCI_LAYOUT )\d+", "99", header), "first"),
        "a number changed": (header.replace("NCI_NO_CREDIT 9u", "NCI_NO_CREDIT 19u"), "first"),
        "a bit changed": (header.replace("the drop flag\n", "the drop flags\n"), "first"),
        "a call added": (header + "uint64_t nci_more(uint8_t conn);\n", "second"),
    }
    for name, (text, part) in parts.items():
        due = f"{first + 1}.0" if part == "first" else f"{first}.{second + 1}"
        if text == header or not any(f"due is {due}:" in wrong for wrong in version_differs(text, noted)):
            yield name
    raised = header.replace(f'"{first}.{second}"', f'"{first}.{second + 1}"')
    raised = raised.replace(f"VERSION {number}u", f"VERSION {number + 1}u")
    if not list(version_differs(raised, noted)):
        yield "a version raised for nothing"


# ---- the library


def run(*command, **named):
    """What a command prints; a failure tells it."""
    both = {"stdout": subprocess.PIPE, "stderr": subprocess.STDOUT, "text": True}
    done = subprocess.run([str(word) for word in command], timeout=PATIENCE, **both, **named)
    if done.returncode != 0:
        raise AssertionError(f"{' '.join(map(str, command))}: status {done.returncode}\n{done.stdout[-2000:]}")
    return done.stdout


def check_names(suite, prefix):
    """The shared object under its three names, and what a program that was linked with it asks for."""
    first, second, _ = version(HEADER.read_text())
    lib, soname = prefix / "lib", f"libnci_bench.so.{first}"
    suite.equal("the soname", re.findall(r"soname: \[(.*)\]", run("readelf", "-d", lib / "libnci_bench.so")), [soname])
    links = {name: os.readlink(lib / name) for name in ("libnci_bench.so", soname)}
    suite.equal("the links", links, {"libnci_bench.so": soname, soname: f"{soname}.{second}"})
    suite.holds("the file", (lib / f"{soname}.{second}").is_file() and not (lib / f"{soname}.{second}").is_symlink())


PROGRAM = """#include <nci_bench.h>
#include <stdio.h>
int main(void) {
    static uint8_t area[NCI_AREA_SIZE], out[NCI_BUFFER_SIZE];
    static const uint8_t profile[] = {0x20, 4, 2, 4, 1}, type[] = {1};
    nci_fresh(area, sizeof area, out, sizeof out, profile, sizeof profile);
    nci_command(area, sizeof area, out, sizeof out, NCI_GID_CORE, NCI_OID_RESET, type, sizeof type);
    nci_down(area, sizeof area, out, sizeof out);
    nci_packet(area, sizeof area, out, sizeof out, NCI_WIRE_UP, 1);
    printf("%s %u %02X\\n", NCI_BENCH_VERSION_STRING, NCI_BENCH_VERSION, out[NCI_HEADER_SIZE + NCI_AT_STATUS]);
    return 0;
}
"""


def check_pkg_config(suite, folder, prefix):
    """A program is built by the words of pkg-config, with the shared object and with the archive, and runs."""
    first, second, number = version(HEADER.read_text())
    environment = os.environ | {"PKG_CONFIG_PATH": str(prefix / "lib" / "pkgconfig")}
    told = run("pkg-config", "--modversion", "nci_bench", env=environment)
    suite.equal(f"{prefix.name}: version of the package", told, f"{first}.{second}\n")
    source = folder / "front.c"
    source.write_text(PROGRAM)
    builds = re.findall(r"^    (eval .*)$", PAGE.read_text(), re.M)
    suite.equal("builds that the page has", len(builds), 2)
    for name, command in zip(["the shared object", "the archive"], builds):
        run("sh", "-euc", command.replace("FILE.c", "front.c"), cwd=folder, env=environment)
        paths = {"LD_LIBRARY_PATH": str(prefix / "lib")} if name == "the shared object" else {}
        told = run(folder / "front", env=os.environ | paths)
        suite.equal(f"{prefix.name}: a program with {name}", told, f"{first}.{second} {number} 00\n")
        needed = "libnci_bench" in run("readelf", "-d", folder / "front")
        suite.equal(f"{prefix.name}: what it needs, with {name}", needed, name == "the shared object")


def check_library(suite, folder):
    for name in ("usr", "a prefix with blanks", "quotes 'and\" others"):
        prefix = folder / name
        said = run(ROOT / "library", prefix)
        named = re.search(r"^package: .*/lib/pkgconfig/nci_bench\.pc$", said, re.M)
        suite.holds(f"{name}: the package is there, and named", named and (prefix / "lib/pkgconfig/nci_bench.pc").is_file(), said)
        check_names(suite, prefix)
        if shutil.which("pkg-config"):
            check_pkg_config(suite, folder, prefix)
    run(ROOT / "library", folder / "usr")
    run(ROOT / "library")
    suite.holds("installed again over itself", (folder / "usr" / "lib" / "libnci_bench.so").exists())


# ---- the programs of the page


def block(page, kind):
    found = re.findall(rf"^```{kind}\n(.*?)^```$", page, re.M | re.S)
    assert len(found) == 1, f"the page has {len(found)} blocks of {kind}"
    return found[0]


def check_examples(suite, folder):
    page = PAGE.read_text()
    due = block(page, "text")
    suite.equal("the program in Python", run(sys.executable, "-c", block(page, "python"), cwd=ROOT), due)
    source = folder / "front.rs"
    source.write_text(block(page, "rust"))
    command = re.search(r"`(rustc [^`]*)`", page)[1].replace("FILE.rs", str(source)).split()
    run(*command, "-D", "warnings", "-o", folder / "front-rust", cwd=ROOT)
    suite.equal("the program in Rust", run(folder / "front-rust"), due)


def main():
    if "--write" in sys.argv:
        return write()
    texts = {name: (ROOT / name).read_text() for name in (NAMES, FIELDS, TYPES, WORD, TABLE, FRONT)} | {"header": HEADER.read_text()}
    suite = Suite("bindings")
    suite.check("the header's constants", list(constants_differ(texts)))
    suite.check("the front end's names of parameters", list(names_differ(texts)))
    suite.check("the bits of the word", list(word_differs(texts)))
    suite.check("the version", list(version_differs(texts["header"], NOTED.read_text())))
    suite.check("a change is noticed", list(unnoticed_changes(texts)))
    suite.check("a change asks for another version", list(unraised(texts["header"], NOTED.read_text())))
    with tempfile.TemporaryDirectory() as path:
        for check in (check_library, check_examples):
            try:
                check(suite, Path(path))
            except (AssertionError, OSError, subprocess.SubprocessError) as fault:  # the other check goes on
                suite.check(check.__name__, [str(fault)])
    return suite.end()


if __name__ == "__main__":
    sys.exit(main())
