#!/usr/bin/env python3
"""The C interface: the library as `./library` builds it, its header, front ends in C and C++ that call every export, damaged
benches under the sanitizers and valgrind, what report reads, and the proved bench beside the second implementation (compare/).

The last line is 'interface: N passed, M failed'. The library is made of proved crates: where they are not proved, this takes
as long as proving them."""
import os
import re
import shutil
import subprocess
import sys
import tempfile
from concurrent.futures import ThreadPoolExecutor
from pathlib import Path

from programs import ROOT, Suite

HEADER = ROOT / "include" / "nci_bench.h"
CARD = ROOT / "docs" / "CARD.md"
C = ROOT / "tests" / "c"
COMPARE = ROOT / "compare"
LIB = ROOT / "build" / "lib"

WARNINGS = ["-Wall", "-Wextra", "-Wpedantic", "-Werror"]
COMPILERS = {
    "gcc": ["gcc", "-std=c99"],
    "clang": ["clang", "-std=c99"],
    "g++": ["g++", "-std=c++11", "-x", "c++"],
    "clang++": ["clang++", "-std=c++11", "-x", "c++"],
}
# a compiler brings these itself
C_LIBRARY = {"memcpy", "memmove", "memset", "memcmp", "bcmp"}
# sections that a program could write to
WRITABLE = ("data", "bss", "tdata", "tbss")

LIST_CALLS = 2_000_000
DAMAGED_CALLS = 1_000_000
SANITIZED_CALLS = 100_000
VALGRIND_CALLS = 3_000
# benches of lists whose payloads are changed for report, and as many with forged wires
REPORT_BENCHES = 10_000
# of calls on damaged benches at least so many bring credits past a grant, and past 255, by each of what adds credits
PAST_GRANT = 500
PAST_255 = 100
# and at least so many packets with reserved bits at 1 are taken, of each kind and each way
RESERVED = 250
# and at least so many presses of run
PRESSES = 10_000
# and of calls of lists at least so many leave a bench on which the moves of run are foretold, with segments of each kind
FORETOLD = 1_000
# groups of cases on benches made by hand
GROUPS = 48
# octets of stack that suffice for every call
STACK = 12_288


def run(*command, **named):
    """Runs a command; a failure tells what it printed."""
    done = subprocess.run(list(map(str, command)), stdout=subprocess.PIPE, stderr=subprocess.STDOUT, text=True, **named)
    if done.returncode != 0:
        raise AssertionError(f"{' '.join(map(str, command))}: status {done.returncode}\n{done.stdout[-3000:]}")
    return done.stdout


def same(found, due):
    assert found == due, f"{found}, expected {due}"


def exports():
    """The functions that the header declares."""
    return sorted(re.findall(r"^uint64_t (nci_\w+)\(", HEADER.read_text(), re.M))


# ---- the library


def symbols(file, *words):
    """The library offers what the header declares, and asks for nothing but the C library."""
    found = re.findall(r" ([A-Za-z]) ([^\s@]+)", run("nm", *words, LIB / file))
    same(sorted(name for kind, name in found if kind.isupper() and kind != "U"), exports())
    unknown = {name for kind, name in found if kind in "Uw"} - C_LIBRARY
    assert not unknown, f"undefined: {unknown}"


def no_data_that_changes(file):
    """No section that a program could write to has an octet."""
    sections = re.findall(r"^\.(\w+)\S*\s+(\d+)", run("size", "-A", LIB / file), re.M)
    assert any(name == "text" and size != "0" for name, size in sections), "no code"
    same([(name, size) for name, size in sections if name in WRITABLE and size != "0"], [])


def other_prefix(folder):
    said = run(ROOT / "library", folder / "usr")
    for file in ["include/nci_bench.h", "lib/libnci_bench.a", "lib/libnci_bench.so"]:
        assert (folder / "usr" / file).is_file() and file in said, f"no {file}"


# ---- the header and front ends in C


def header_alone(compiler, folder):
    source = folder / f"alone-{compiler}.c"
    source.write_text('#include "nci_bench.h"\n')
    run(*COMPILERS[compiler], *WARNINGS, f"-I{HEADER.parent}", "-c", source, "-o", source.with_suffix(".o"))


def card():
    """The header says the lines of the card."""
    lines = re.findall(r"^- (\d+): (.*)\.$", CARD.read_text(), re.M)
    numbers = dict(re.findall(r"^#define (NCI_\w+) (\d+)u$", HEADER.read_text(), re.M))
    said = re.findall(r'case (NCI_\w+):\s*return "(.*)";', HEADER.read_text())
    same([(numbers[name], text) for name, text in said[1:]], lines)


def build_c(name, compiler, folder, *words):
    program = folder / f"{name}-{compiler}{len(words)}"
    run(*COMPILERS[compiler], "-O2", *WARNINGS, f"-I{HEADER.parent}", C / f"{name}.c", "-x", "none", *words, "-o", program)
    return program


def exports_from_c(compiler, folder):
    run(build_c("exports", compiler, folder, LIB / "libnci_bench.a"))


def reports_from_c(compiler, folder):
    run(build_c("reports", compiler, folder, LIB / "libnci_bench.a"))


def exports_from_shared_object(folder):
    run(build_c("exports", "gcc", folder, f"-L{LIB}", "-lnci_bench", f"-Wl,-rpath,{LIB}"))


def sanitized(compiler, folder):
    words = ["-g", "-fsanitize=address,undefined", "-fno-sanitize-recover=all", LIB / "libnci_bench.a"]
    run(build_c("exports", compiler, folder, *words))
    run(build_c("reports", compiler, folder, *words))
    print(run(build_c("damaged", compiler, folder, *words), SANITIZED_CALLS), end="")


def stack(folder):
    print(run(build_c("stack", "gcc", folder, LIB / "libnci_bench.a"), STACK), end="")


def valgrind(folder):
    check = ["valgrind", "--quiet", "--error-exitcode=9"]
    run(*check, build_c("exports", "gcc", folder, LIB / "libnci_bench.a"))
    print(run(*check, build_c("damaged", "gcc", folder, LIB / "libnci_bench.a"), VALGRIND_CALLS), end="")
    run(*check, COMPARE / "target" / "release" / "damaged", VALGRIND_CALLS)


def has_header(name):
    return subprocess.run(["gcc", "-E", "-include", name, "-xc", "/dev/null"], capture_output=True).returncode == 0


def valgrind_of_reports(folder):
    """Payloads that report does not look into are out of its reach, and some were."""
    program = build_c("reports", "gcc", folder, "-g", LIB / "libnci_bench.a")
    told = run("valgrind", "--quiet", "--error-exitcode=9", program)
    print(told, end="")
    assert int(told.split("kept-out=")[1]) > 0, "no payload was kept out of reach"


# ---- beside the second implementation


def cargo(*words, more=()):
    command = ["cargo", *words, "--release", "--locked", "--quiet", *more]
    return run(*command, cwd=COMPARE, env=os.environ | {"CARGO_NET_OFFLINE": "true"})


def program(name, *words):
    """Runs a comparison; what it met is printed."""
    said = run(COMPARE / "target" / "release" / name, *words)
    print(said, end="")
    return dict(field.split("=", 1) for field in said.split())


def compare_tests():
    """The tests hold how many cases each group has and what they came to; the groups are told."""
    said = cargo("test", "--all-targets", "--no-fail-fast", more=["--", "--nocapture"])
    groups = re.findall(r'cases=(\d+) group="([^"]+)"', said)
    print(f"cases={sum(int(cases) for cases, _ in groups)}", *(f"{name.replace(' ', '-')}={cases}" for cases, name in groups))
    same(len(groups), GROUPS)


def lists():
    met = program("lists", LIST_CALLS)
    same((met["difference"], met["never"], met["gaps"]), ("none", "none", "none"))
    assert int(met["calls"]) >= LIST_CALLS
    # most credits come back inside data packets, and some in notices
    assert int(met["carried"]) > int(met["noticed"]) > 0
    # every list was brought to rest by presses, within the bound, and no message was in hand then
    same(met["rests"], met["lists"])
    # presses made the moves foretold: for the host on a loopback, on 0 with flow control and without, for the endpoint
    kinds = ["loopback", "flow-control", "no-flow-control", "reply", "together"]
    foretold = {kind: int(met[f"exact-{kind}"]) for kind in kinds}
    assert min(foretold.values()) >= FORETOLD, f"moves foretold: {foretold}"


def damaged():
    met = program("damaged", DAMAGED_CALLS)
    same((met["difference"], met["never"], met["gaps"]), ("none", "none", "none"))
    assert int(met["made"]) >= DAMAGED_CALLS
    # stored packets in which other credits stood
    assert int(met["replaced"]) > 0
    # calls that brought credits past a grant, and past 255; some left a record that is damaged, others one within the grant
    # again. A record that passes for sound owes at most 254, so consume comes to 255 at most.
    past = [int(met[f"past-{source}"]) for source in ("notice", "data", "consume")]
    wrapped = [int(met[f"wrapped-{source}"]) for source in ("notice", "data")]
    assert min(past) >= PAST_GRANT and min(wrapped) >= PAST_255, f"past a grant {past}, past 255 {wrapped}"
    assert PAST_GRANT <= int(met["leftpast"]) <= sum(past) - PAST_GRANT, f"{met['leftpast']} of {past} left past a grant"
    same(met["wrapped-consume"], "0")
    # presses, and those of them whose last move left credits past a grant
    assert int(met["run"]) >= PRESSES and int(met["endpast"]) >= PAST_GRANT, f"{met['run']} presses, {met['endpast']} past"
    # packets with reserved bits at 1, shown and dropped; the place of credits is reserved going down alone
    kinds = [f"{way}-{kind}" for way in ("down", "up") for kind in ("control", "data", "dropped")] + ["down-credits"]
    reserved = {kind: int(met[f"rfu-{kind}"]) for kind in kinds}
    assert min(reserved.values()) >= RESERVED, f"reserved bits at 1: {reserved}"
    same(met["rfu-up-credits"], "0")


def every_octet():
    met = program("damaged", "octets")
    same((met["difference"], met["benches"]), ("none", str(512 * 256)))


def reports():
    met = program("reports", REPORT_BENCHES)
    same((met["difference"], met["gaps"]), ("none", "none"))
    # no gap: packets with other payloads on both wires, numbers above 0 beside them, and beside each kind of forged packet
    assert int(met["lists-benches"]) >= REPORT_BENCHES and int(met["forged-benches"]) >= REPORT_BENCHES


# ---- all of it


def tests(folder):
    """The tests by name, those that take long last."""
    compilers = [compiler for compiler in COMPILERS if shutil.which(COMPILERS[compiler][0])]
    yield "symbols of the archive", lambda: symbols("libnci_bench.a")
    yield "symbols of the shared object", lambda: symbols("libnci_bench.so", "-D")
    for file in ["libnci_bench.a", "libnci_bench.so"]:
        yield f"no data that changes in {file}", lambda file=file: no_data_that_changes(file)
    yield "another prefix", lambda: other_prefix(folder)
    yield "the card", card
    for compiler in compilers:
        yield f"header alone, {compiler}", lambda compiler=compiler: header_alone(compiler, folder)
        yield f"exports, {compiler}", lambda compiler=compiler: exports_from_c(compiler, folder)
        yield f"reports, {compiler}", lambda compiler=compiler: reports_from_c(compiler, folder)
    yield "exports of the shared object", lambda: exports_from_shared_object(folder)
    yield "a small stack", lambda: stack(folder)
    for compiler in [compiler for compiler in ["gcc", "clang"] if compiler in compilers]:
        yield f"sanitizers, {compiler}", lambda compiler=compiler: sanitized(compiler, folder)
    if shutil.which("valgrind"):
        yield "valgrind", lambda: valgrind(folder)
        if has_header("valgrind/memcheck.h"):
            yield "valgrind of reports", lambda: valgrind_of_reports(folder)
    yield "tests of compare", compare_tests
    yield "reports", reports
    yield "every octet of the record", every_octet
    yield "lists", lists
    yield "damaged benches", damaged


def attempt(named):
    """A test's name, and what stopped it."""
    name, test = named
    try:
        test()
        return name, []
    except Exception as fault:  # whatever stops a test, the others go on
        return name, [f"{type(fault).__name__}: {fault}"]


def main():
    print(run(ROOT / "library"), end="")
    cargo("build", "--bins")
    suite = Suite("interface")
    with tempfile.TemporaryDirectory() as folder, ThreadPoolExecutor(os.cpu_count()) as pool:
        for name, wrong in pool.map(attempt, tests(Path(folder))):
            suite.check(name, wrong)
    return suite.end()


if __name__ == "__main__":
    sys.exit(main())
