#!/usr/bin/env python3
"""The scripts as users call them: answers that are lost, lines of another form, builds, links and folders, tools that are
missing, the library's folder and how it is linked.

    scripts.py          runs all tests; the last line is 'scripts: N passed, M failed'

The scripts run in a copy of theirs, where a stand-in for rt builds: it says what rt says, takes what is built here already, and
fails where two of it run at once."""
import os
import pty
import re
import shutil
import subprocess
import sys
import tempfile
from pathlib import Path

from programs import PATIENCE, ROOT, Suite, built

COPIED = ["play", "library", "test", "bench", "scripts", "front", "include", "examples", "crates.txt", "tests"]
ARCHIVE = ROOT / "target" / "staticlib" / "libbench.a"
FIRST = (ROOT / "examples" / "first.txt").read_bytes()
ANSWERS = (ROOT / "examples" / "first.answers.txt").read_bytes()
BAD = b"ev=bad ans=3\n"
BOM = b"\xef\xbb\xbf"
# what the scripts call beside the tools that they name when they are missing
USED = "bash env basename dirname readlink find awk sed mkdir touch mv rm install mktemp chmod sh cat cp rmdir sleep ld as grep flock"
RT = """#!/bin/sh
top=../..
mkdir $top/rt-at-work || { echo "rt: two at once"; exit 1; }
echo "$1 ${PWD##*/}" >>$top/calls
echo "rt: chose --jobs 2 for state"
echo "a line of the prover"
echo "library octets: modules loaded=51 checked=0"
echo "logic=proved functions=1 native=nat,char,string"
sleep "${RT_SECONDS:-0}"
echo "rt: chose --jobs 2 for dh"
if [ -e $top/broken ]; then
    echo "logic=not-proved"
    rmdir $top/rt-at-work
    exit 1
fi
[ "$1 ${PWD##*/}" = "run paper" ] && cp PAPER out/paper
[ "$1 ${PWD##*/}" = "lib bench_c" ] && cp ARCHIVE out/libbench_c.a
rmdir $top/rt-at-work
"""


def below(crate):
    """The crates that a proof of this one goes through, each behind those that it stands on, itself the last."""
    lines = re.findall(r"^(\w+)(?: staticlib)?:([^#\n]*)", (ROOT / "crates.txt").read_text(), re.M)
    names = {name: words.split() for name, words in lines}

    def visit(name, found):
        if name in names and name not in found:
            for word in names[name]:
                visit(word, found)
            found.append(name)
        return found

    return visit(crate, [])


class Copy:
    """The scripts in a folder of their own, whose name has a blank, with nothing built, and the stand-in first in PATH."""

    def __init__(self, folder):
        self.root, self.tools, self.elsewhere = folder / "the bench", folder / "tools", folder / "elsewhere"
        for made in (self.root / "crates", self.tools, self.elsewhere):
            made.mkdir(parents=True)
        for name in COPIED:
            source = ROOT / name
            (shutil.copytree if source.is_dir() else shutil.copy)(source, self.root / name)
        for crate in ("paper", "bench_c"):
            (self.root / "crates" / crate / "out").mkdir(parents=True)
        rt = self.tools / "rt"
        rt.write_text(RT.replace("PAPER", f"'{built('paper')}'").replace("ARCHIVE", f"'{ARCHIVE}'"))
        rt.chmod(0o755)
        self.env = {**os.environ, "PATH": f"{self.tools}:{os.environ['PATH']}"}
        for name in ("CC", "CFLAGS"):
            self.env.pop(name, None)

    def run(self, script, *words, env=None, cwd=None, **named):
        """A script with its output, what it says and its exit status; standard input is empty where none is given."""
        if "stdin" not in named:
            named.setdefault("input", b"")
        return subprocess.run(
            [self.root / script, *words], env=self.env | (env or {}), cwd=cwd or self.root,
            **{"stdout": subprocess.PIPE, "stderr": subprocess.PIPE, "timeout": PATIENCE, **named},
        )

    def shell(self, line, **named):
        """A line of a shell in the copy."""
        return subprocess.run(
            ["bash", "-c", line], env=self.env, cwd=self.root, capture_output=True, timeout=PATIENCE, **named
        )

    def forget(self):
        """Nothing is built any more."""
        for name in ("target", "build", "rt-at-work"):
            shutil.rmtree(self.root / name, ignore_errors=True)
        for name in ("calls", "broken"):
            (self.root / name).unlink(missing_ok=True)

    def calls(self):
        calls = self.root / "calls"
        return calls.read_text().splitlines() if calls.exists() else []

    def without(self, *missing):
        """An environment in which these tools are missing."""
        bare = Path(tempfile.mkdtemp(dir=self.tools))
        for name in [*USED.split(), "rt", "cargo", "python3", "gcc", "cc"]:
            found = shutil.which(name, path=self.env["PATH"])
            if found and name not in missing:
                (bare / name).symlink_to(found)
        return {"PATH": str(bare)}


def failed_with(done, words):
    """A status other than 0, and a line on standard error that has these words."""
    lines = done.stderr.decode().splitlines()
    return done.returncode != 0 and any(re.search(words, line) for line in lines)


# ---- lost answers

# each: the shell's line, and what is said
LOST = {
    "a full disk": ("./play < examples/first.txt > /dev/full", "an answer is lost: No space left"),
    "a full disk, from a file": ("./play examples/first.txt > /dev/full", "an answer is lost: No space left"),
    "an output that is closed": ("./play < examples/first.txt >&-", "output is closed"),
    "an output that only reads": ("./play < examples/first.txt 1< /dev/null", "an answer is lost: Bad file"),
    "an input that is a folder": ("./play < examples", "cannot be read: Is a directory"),
    "a file that is a folder": ("./play examples", "cannot be read: Is a directory"),
    "an input that is closed": ("./play <&-", "input is closed"),
    "an input that only writes": ("./play 0> /dev/null", "cannot be read: Bad file"),
    "a file that is not there": ("./play examples/none.txt", "cannot read examples/none.txt"),
    "a reader that goes away": (
        "set -o pipefail; (cat examples/first.txt; sleep 1; cat examples/first.txt) | ./play | head -n 1",
        "an answer is lost: nobody reads",
    ),
    "a reader that goes away, without the signal": (
        "trap '' PIPE; set -o pipefail; (cat examples/first.txt; sleep 1; cat examples/first.txt) | ./play | head -n 1",
        "an answer is lost: Broken pipe",
    ),
}


def check_lost(suite, copy):
    for name, (line, said) in LOST.items():
        done = copy.shell(line)
        suite.holds(f"lost, {name}", failed_with(done, said), f"{done.returncode} {done.stderr}")
    for line in ("./play < examples/first.txt", "./play examples/first.txt", "cat examples/first.txt | ./play"):
        done = copy.shell(line)
        suite.equal(f"not lost, {line}", (done.stdout, done.stderr, done.returncode), (ANSWERS, b"", 0))


# ---- lines of another form, and a terminal


def check_foreign(suite, copy):
    """Such lines are answered as bad lines, and noted once."""
    crlf = FIRST.replace(b"\n", b"\r\n")
    lines = FIRST.count(b"\n")
    for name, paper, answers, noted in [
        ("CRLF", crlf, BAD * lines, b"CRLF"),
        ("a BOM", BOM + FIRST, BAD, b"BOM"),
        ("no BOM", FIRST + BOM[:2] + b"\n" + BOM[:1] + b"\n", ANSWERS + BAD * 2, None),
        ("both", BOM + crlf, BAD * lines, b"CRLF"),
        ("CRLF in the last line alone", FIRST[:-1] + b"\r\n", ANSWERS[:100], b"CRLF"),
    ]:
        done = copy.run("play", input=paper)
        suite.holds(f"{name}, answers", done.stdout.startswith(answers) and done.returncode == 0, f"{done}")
        due = rb"paper: note: .*%b.*\n" % noted if noted else b""
        suite.holds(f"{name}, noted once", re.fullmatch(due, done.stderr), f"{done.stderr}")
        (copy.elsewhere / "paper.txt").write_bytes(paper)
        told = copy.run("play", copy.elsewhere / "paper.txt")
        suite.equal(f"{name}, from a file", (told.stdout, told.stderr, told.returncode), (done.stdout, done.stderr, 0))


def check_converted(suite, copy):
    """The line of the README, and that of the examples, which convert a paper."""
    for document in ("README.md", "examples/README.md"):
        lines = re.findall(r"^    (sed .*) PAPER > (?:\S+)$", (ROOT / document).read_text(), re.M)
        suite.equal(f"{document}, a line that converts", len(lines), 1)
        for line in lines:
            done = subprocess.run(["bash", "-c", line], input=BOM + FIRST.replace(b"\n", b"\r\n"), stdout=subprocess.PIPE)
            suite.equal(f"{document}, converted", done.stdout, FIRST)


def check_terminal(suite, copy):
    """On a terminal one line says how a line looks, and how to end; otherwise none."""
    ours, theirs = pty.openpty()
    with subprocess.Popen(
        [copy.root / "play"], env=copy.env, stdin=theirs, stdout=subprocess.PIPE, stderr=subprocess.PIPE
    ) as process:
        os.close(theirs)
        os.write(ours, b"ev=push arg=02\n\x04")
        out, said = process.communicate(timeout=PATIENCE)
    os.close(ours)
    suite.equal("a terminal, answers", (out, process.returncode), (b"ev=push ans=6 drop=0 rfu=00 pkt= msg=\n", 0))
    suite.holds("a terminal, what is said", re.fullmatch(rb"play: [^\n]*ev=NAME arg=HEX[^\n]*Ctrl-D[^\n]*\n", said), f"{said}")


# ---- builds


def check_at_once(suite, copy):
    """Two first builds at once: one builds, the other waits and takes what is built."""
    for scripts in [("play", "play"), ("library", "library"), ("front/build", "library"), ("play", "front/build")]:
        copy.forget()
        runs = [
            subprocess.Popen(
                [copy.root / script], env=copy.env | {"RT_SECONDS": "2"}, stdin=open(copy.root / "examples" / "first.txt"),
                stdout=subprocess.PIPE, stderr=subprocess.PIPE,
            )
            for script in scripts
        ]
        told = [(*run.communicate(timeout=PATIENCE), run.returncode) for run in runs]
        name = " and ".join(scripts)
        suite.equal(f"{name} at once, statuses", [status for _, _, status in told], [0, 0])
        suite.equal(f"{name} at once, once each", len(copy.calls()), len(set(copy.calls())))
        suite.equal(f"{name} at once, one waits", b"".join(said for _, said, _ in told).count(b"waits"), 1)
        for script, (out, _, _) in zip(scripts, told):
            if script == "play":
                suite.equal(f"{name} at once, answers", out, ANSWERS)


def check_progress(suite, copy):
    """A build says what it does and how long that takes, then a line a crate that it proves; a second run says nothing."""
    for script, crate in (("play", "paper"), ("library", "bench_c"), ("front/build", "bench_c")):
        copy.forget()
        crates = below(crate)
        count = len(crates)
        said = copy.run(script).stderr.decode()
        suite.holds(f"{script}, a first build", f"{count} crates, about seven minutes on two cores" in said, said)
        line = rf"^{crates.index('state') + 1} of {count}: state, \d+ s$"
        suite.holds(f"{script}, a line a crate", re.search(line, said, re.M) and "octets" not in said, said)
        done = copy.run(script)
        suite.equal(f"{script}, built already", (done.stderr, done.returncode), (b"", 0))
        (copy.root / "crates" / "changed").touch()
        suite.holds(f"{script}, built again after a change", b"crates" in copy.run(script).stderr)


def check_broken(suite, copy):
    """A build that fails says so, and where the whole log is."""
    for script in ("play", "library", "front/build"):
        copy.forget()
        (copy.root / "broken").touch()
        done = copy.run(script)
        suite.holds(f"{script}, a build that fails", failed_with(done, "whole log is target/build.log$"), f"{done}")
        far = copy.run(script, cwd=copy.elsewhere)
        suite.holds(f"{script}, from another folder", failed_with(far, r"whole log is /.*the\\ bench/target/build.log$"), f"{far}")
        suite.holds(f"{script}, what fails", b": dh NOT PROVED\n" in done.stderr, f"{done.stderr}")
        log = copy.root / "target" / "build.log"
        suite.holds(f"{script}, the log", log.exists() and "a line of the prover" in log.read_text())
        suite.equal(f"{script}, nothing else", (done.stdout, (copy.root / "build" / "lib").exists()), (b"", False))
    copy.forget()


# ---- links, folders, tools


def check_elsewhere(suite, copy):
    """Through a link, and from another folder."""
    for script in ("play", "library", "front/build", "test"):
        link = copy.elsewhere / Path(script).name
        link.symlink_to(copy.root / script)
        help_ = subprocess.run([link, "--help"], cwd=copy.elsewhere, env=copy.env, capture_output=True, text=True)
        suite.holds(f"{script} --help", help_.returncode == 0 and help_.stdout != "" and help_.stderr == "", f"{help_}")
        if script != "test":
            done = subprocess.run([link], cwd=copy.elsewhere, env=copy.env, input=FIRST, capture_output=True)
            suite.equal(f"{script}, from another folder", done.returncode, 0)
            if script == "play":
                suite.equal("play, answers from another folder", done.stdout, ANSWERS)
        link.unlink()
    link.symlink_to(ROOT / "test")
    done = subprocess.run([link, "area"], cwd=copy.elsewhere, capture_output=True, text=True)
    suite.holds("test, from another folder", re.search(r"^\d+ passed, 0 failed$", done.stdout, re.M), f"{done}")
    link.unlink()
    suite.holds("front/build, its program", os.access(copy.root / "build" / "keys", os.X_OK))
    suite.equal("nothing in the other folder", [path.name for path in copy.elsewhere.iterdir() if path.is_dir()], [])
    done = copy.run("test", "nothing", cwd=copy.elsewhere)
    suite.equal("test, no suite of this name", done.returncode, 2)


def check_tools(suite, copy):
    """A tool that is missing is named in one line."""
    for script, words, missing in [
        ("play", [], ["rt"]), ("library", [], ["rt"]), ("library", [], ["cc"]), ("front/build", [], ["cc"]),
        ("front/build", [], ["rt"]), ("test", ["crates"], ["rt"]), ("test", ["second"], ["cargo"]),
        ("test", ["documents"], ["python3"]), ("test", ["interface"], ["gcc"]), ("bench", [], ["cargo"]), ("bench", [], ["cc"]),
    ]:
        copy.forget()
        done = copy.run(script, *words, env=copy.without(*missing))
        name = " ".join([script, *words])
        good = failed_with(done, f": there is no {missing[0]}, .*which|: there is no {missing[0]}, the")
        suite.holds(f"{name} without {missing[0]}", good and len(done.stderr.splitlines()) == 1, f"{done}")
    done = copy.run("library", env={"CC": "no-such-cc -m64"})
    suite.holds("library with another compiler that is missing", failed_with(done, "there is no no-such-cc, "), f"{done}")


# ---- the library


FRONT = """#include <stdio.h>
#include "nci_bench.h"
static uint8_t area[NCI_AREA_SIZE], out[NCI_BUFFER_SIZE];
int main(void)
{
    static const uint8_t profile[] = {0x20, 4, 2, 4, 1}, type[] = {1};
    nci_fresh(area, sizeof area, out, sizeof out, profile, sizeof profile);
    uint64_t word = nci_command(area, sizeof area, out, sizeof out, 0, 0, type, sizeof type);
    printf("%u packets down\\n", nci_word_put_down(word));
    return 0;
}
"""


def linked(suite, name, folder, line):
    """A line that links front.c makes a program that starts, from whatever folder."""
    (folder / "front.c").write_text(FRONT)
    (folder / "a.out").unlink(missing_ok=True)
    made = subprocess.run(["bash", "-c", line], cwd=folder, capture_output=True, text=True)
    suite.equal(f"{name}, {line}", (made.stderr, made.returncode), ("", 0))
    if made.returncode == 0:
        ran = subprocess.run([folder / "a.out"], cwd="/", capture_output=True, text=True)
        suite.equal(f"{name}, its program", (ran.stdout, ran.stderr), ("1 packets down\n", ""))


def check_linked(suite, copy):
    """What `./library` prints, for a prefix of the caller's with a blank in it, and the README's lines in a copy of it."""
    copy.forget()
    done = copy.run("library", "a b/usr", cwd=copy.elsewhere)
    suite.equal("library, a prefix with a blank", done.returncode, 0)
    for file in ("include/nci_bench.h", "lib/libnci_bench.a", "lib/libnci_bench.so"):
        suite.holds(f"library, {file}", (copy.elsewhere / "a b" / "usr" / file).is_file())
    lines = re.findall(r"^(?:link|or): +(.*)$", done.stdout.decode(), re.M)
    suite.equal("library, lines that link", len(lines), 2)
    for line in lines:
        linked(suite, "library", copy.elsewhere, line.replace("FILE.c", "front.c"))
    lines = re.findall(r"^    (cc .*front\.c.*)$", (ROOT / "README.md").read_text(), re.M)
    suite.equal("README.md, lines that link", len(lines), 2)
    copy.run("library")
    for line in lines:
        linked(suite, "README.md", copy.root, line)


def check_compilers(suite, copy):
    """A compiler of more than one word, and one that fails, which leaves nothing behind."""
    for script in ("library", "front/build"):
        done = copy.run(script, env={"CC": "gcc -m64", "CFLAGS": "-O1 -g"})
        suite.equal(f"{script} with gcc -m64", (done.stderr, done.returncode), (b"", 0))
    none = copy.elsewhere / "none"
    done = copy.run("library", none, env={"CC": "false"})
    suite.holds("library, a compiler that fails", failed_with(done, "nothing is installed"), f"{done}")
    suite.equal("library, nothing is left", [str(path) for path in none.rglob("*")], [])
    kept = (copy.root / "build" / "keys").stat()
    done = copy.run("front/build", env={"CC": "false"})
    suite.holds("front/build, a compiler that fails", done.returncode != 0 and done.stdout == b"", f"{done}")
    suite.equal("front/build, what was there stays", (copy.root / "build" / "keys").stat(), kept)
    suite.equal("front/build, nothing is left", sorted(path.name for path in (copy.root / "build").iterdir()), ["include", "keys", "lib"])
    (copy.elsewhere / "file").touch()
    done = copy.run("library", copy.elsewhere / "file")
    suite.holds("library, a prefix that is a file", failed_with(done, "^library: cannot write below "), f"{done}")


TESTS = (
    check_at_once, check_progress, check_broken, check_tools, check_elsewhere, check_linked, check_compilers, check_lost,
    check_foreign, check_converted, check_terminal,
)


def main():
    suite = Suite("scripts")
    subprocess.run([ROOT / "library"], stdout=subprocess.DEVNULL, check=True)
    with tempfile.TemporaryDirectory() as folder:
        copy = Copy(Path(folder))
        for test in TESTS:
            test(suite, copy)
    return suite.end()


if __name__ == "__main__":
    sys.exit(main())
