#!/usr/bin/env python3
"""The programs for markers: ./mark-paper, which plays a paper and compares its answers, and ./transcript, which tells a paper in
words. Both are run as a marker runs them; where play or the keys have to fail, copies are run beside stubs.

The last line is 'marking: N passed, M failed'."""
import os
import random
import re
import shutil
import subprocess
import sys
import tempfile
from pathlib import Path

from programs import PATIENCE, ROOT, Suite

EXAMPLES = sorted(path for path in (ROOT / "examples").glob("*.txt") if not path.name.endswith(".answers.txt"))
FIRST = ROOT / "examples" / "first.txt"
MARK, TRANSCRIPT = ROOT / "mark-paper", ROOT / "transcript"
COPIED = ["mark-paper", "transcript", "marking", "docs/CARD.md"]
SEED, SPOILT = 11, 40
# output is lost when it is flushed, and not before
BUFFERED = {name: value for name, value in os.environ.items() if name != "PYTHONUNBUFFERED"}


def answers_of(paper):
    return paper.with_name(paper.stem + ".answers.txt")


def run(program, *words, **named):
    """What a program says, what it complains of, and its status."""
    named = {"stdout": subprocess.PIPE, "env": BUFFERED, **named}
    done = subprocess.run([program, *words], stderr=subprocess.PIPE, text=True, timeout=PATIENCE, **named)
    return done.stdout, done.stderr, done.returncode


class Folder:
    """A folder for papers and answers of a test."""

    def __init__(self, path):
        self.path = Path(path)

    def write(self, name, text):
        path = self.path / name
        path.parent.mkdir(parents=True, exist_ok=True)
        path.write_bytes(text if isinstance(text, bytes) else text.encode())
        return path

    def program(self, name, text):
        path = self.write(name, text)
        path.chmod(0o755)
        return path


def copies(folder, name, **stubs):
    """The two programs in a folder of their own, beside stubs for play, the keys and their build."""
    inner = Folder(folder.path / name)
    for file in COPIED:
        target = inner.path / file
        target.parent.mkdir(parents=True, exist_ok=True)
        (shutil.copytree if (ROOT / file).is_dir() else shutil.copy)(ROOT / file, target)
    for made in ("front", "include", "crates"):
        (inner.path / made).mkdir(exist_ok=True)
    inner.write("crates.txt", "")
    places = {"play": "play", "build": "front/build", "keys": "build/keys"}
    for stub, text in stubs.items():
        inner.program(places[stub], "#!/bin/sh\n" + text)
    return inner


# ---- papers that are alike, and papers that are not


def check_alike(suite):
    for paper in EXAMPLES:
        count = len(paper.read_text().splitlines())
        suite.equal(f"{paper.name} alike", run(MARK, paper, answers_of(paper)), (f"{count} lines alike\n", "", 0))


# a line of an example, what is changed in it, and what is said of the field: both values and their words
CHANGES = [
    ("first.txt", 3, "ev=push", "ev=pull", ["ev, answers: pull, no value of this field", "ev, played: push, the call push"]),
    ("first.txt", 3, "ans=6", "ans=0", ["ans, answers: 0, taken", "ans, played: 6, the connection is not open: at the host for "
     "send and push, at the controller for consume and report"]),
    ("first.txt", 3, "ans=6", "ans=13", ["ans, answers: 13, no number of the card"]),
    ("first.txt", 4, "drop=0", "drop=1", ["drop, answers: 1, a packet, or an entry of a credit notice, dropped",
     "drop, played: 0, nothing dropped"]),
    ("reserved.txt", 2, "rfu=C0", "rfu=00", ["rfu, answers: 00, no reserved bit at 1",
     "rfu, played: C0, reserved bits 7 and 6 of octet 1 at 1"]),
    ("reserved.txt", 3, "rfu=40", "rfu=4", ["rfu, answers: 4, no value of this field",
     "rfu, played: 40, reserved bit 6 of octet 1 at 1"]),
    ("first.txt", 1, "pkt=20000101", "pkt=", ["pkt, answers: nothing, no packet", "pkt, played: 20000101, reset command"]),
    ("first.txt", 2, "pkt=400001006000", "pkt=400001056000", ["pkt, answers: 400001056000050201200000, reset response, status "
     "syntax error; reset notification", "pkt, played: 400001006000050201200000, reset response, status OK; reset notification",
     "pkt, octet 3 is the first that differs, counted from 0"]),
    ("first.txt", 16, "pkt=12", "pkt=02", ["data on connection 2, 4 octets\n", "data on connection 2, 4 octets, more follows\n"]),
    ("first.txt", 22, "pkt=1201", "pkt=1200", ["data on connection 2, 4 octets, more follows\n",
     "data on connection 2, 4 octets, more follows, 1 credit\n"]),
    ("first.txt", 1, "pkt=20000101", "pkt=203F0501", ["pkt, answers: 203F0501, 4 octets that are no whole packet"]),
    ("first.txt", 1, "pkt=20000101", "pkt=203F00", ["pkt, answers: 203F00, GID 0 OID 3F command"]),
    ("first.txt", 1, "pkt=20000101", "pkt=800000", ["pkt, answers: 800000, reserved message type 4"]),
    ("first.txt", 1, "pkt=20000101", "pkt=2000010", ["pkt, answers: 2000010, no value of this field"]),
    ("first.txt", 31, "msg=0", "msg=-0", ["msg, answers: -010203040506070809, no value of this field",
     "msg, played: 010203040506070809, a message of 9 octets"]),
    ("credits.txt", 34, "msg=-", "msg=", ["msg, answers: nothing, no message", "msg, played: -, an empty message"]),
    ("first.txt", 2, "rfu=00 ", "", ["rfu, answers: the field is missing", "rfu, played: 00, no reserved bit at 1"]),
    ("first.txt", 2, "msg=", "msg= note=1", ["note, answers: 1, no field of an answer", "note, played: the field is missing"]),
    ("first.txt", 31, "ev=up ans=0 drop=0", "ev=up drop=0 ans=0", ["form, answers: ev=up drop=0 ans=0 ",
     "form, played: ev=up ans=0 "]),
    ("first.txt", 2, "msg=", "msg= ", ["form, answers: ", "the same but for blanks at an end\n"]),
    ("first.txt", 3, "ev=push ans=6 drop=0 rfu=00 pkt= msg=", "", ["form, answers: an empty line\n"]),
    ("first.txt", 3, "ev=push ans=6 drop=0 rfu=00 pkt= msg=", "refused", ["form, answers: refused\n"]),
    ("first.txt", 11, "pkt=40040400040202", "pkt=40040400040203", ["create response, status OK"]),
    ("run.txt", 4, "moves=3", "moves=4", ["moves, answers: 4, 4 moves\n", "moves, played: 3, 3 moves\n"]),
    ("run.txt", 13, "moves=1", "moves=0", ["moves, answers: 0, 0 moves\n", "moves, played: 1, 1 move\n"]),
    ("run.txt", 11, "moves=11", "moves=1211", ["moves, answers: 1211, 1211 moves\n", "moves, played: 11, 11 moves\n"]),
    ("run.txt", 11, "moves=11", "moves=0B", ["moves, answers: 0B, no value of this field"]),
    ("run.txt", 11, " moves=11", "", ["moves, answers: the field is missing", "moves, played: 11, 11 moves"]),
    ("run.txt", 9, "msg=0200000000", "msg=0200000000 moves=0", ["moves, answers: 0, 0 moves", "moves, played: the field is missing"]),
    ("run.txt", 44, "drop=1", "drop=0", ["drop, played: 1, a packet, or an entry of a credit notice, dropped"]),
    ("side-by-side.txt", 45, "ev=bad", "ev=BAD", ["ev, answers: BAD, no value of this field",
     "ev, played: bad, no line of the sheet", "the same but for capital and small letters"]),
]


def changed(paper, number, old, new):
    """The answers with a text of one line changed."""
    lines = answers_of(paper).read_text().split("\n")
    assert old in lines[number - 1], f"{paper.name}, line {number}, is {lines[number - 1]}"
    lines[number - 1] = lines[number - 1].replace(old, new, 1)
    return "\n".join(lines)


def check_changes(suite, folder):
    for name, number, old, new, said in CHANGES:
        paper = ROOT / "examples" / name
        out, complaint, status = run(MARK, paper, folder.write("answers", changed(paper, number, old, new)))
        first = f"line {number}: {paper.read_text().splitlines()[number - 1]}\n"
        wrong = [] if (complaint, status) == ("", 1) and out.startswith(first) else [f"{out} {complaint} {status}"]
        wrong += [f"{text!r} is not in {out!r}" for text in said if text not in out]
        wrong += [line for line in out.splitlines()[1:] if not line.startswith(f"line {number}, ")]
        # a number is no row of octets
        wrong += [line for line in out.splitlines() if re.match(r"line \d+, (ans|moves), octet", line)]
        suite.check(f"{name}, line {number}, {new or 'nothing'} for {old}", wrong)


def check_small_letters(suite, folder):
    lower = re.sub(r"(?<==)[0-9A-F]+", lambda found: found[0].lower(), answers_of(ROOT / "examples" / "tag.txt").read_text())
    out, _, status = run(MARK, ROOT / "examples" / "tag.txt", folder.write("answers", lower))
    suite.holds("hex in small letters is told", status == 1 and "the same but for capital and small letters\n" in out, out)


def check_every_octet(suite, folder):
    """Another character anywhere in the answers is a difference in its line."""
    text, rng, wrong = answers_of(FIRST).read_text(), random.Random(SEED), []
    for _ in range(SPOILT):
        at = rng.choice([i for i, c in enumerate(text) if c != "\n"])
        spoilt = text[:at] + chr(ord(text[at]) ^ 1) + text[at + 1 :]
        out, _, status = run(MARK, FIRST, folder.write("answers", spoilt))
        number = text.count("\n", 0, at) + 1
        if status != 1 or not out.startswith(f"line {number}: "):
            wrong.append(f"character {at} of line {number}: {status} {out}")
    suite.check("another character", wrong, f"{SPOILT} cases")


def check_all(suite, folder):
    answers = folder.write("answers", re.sub("ans=6", "ans=0", answers_of(FIRST).read_text()))
    out, _, status = run(MARK, FIRST, answers)
    suite.equal("the first line that differs alone", (set(re.findall(r"^line (\d+)", out, re.M)), status), ({"3"}, 1))
    out, _, status = run(MARK, "--all", FIRST, answers)
    suite.equal("--all: every line that differs", (set(re.findall(r"^line (\d+)", out, re.M)), status), ({"3", "9"}, 1))
    suite.equal("--all: how many are alike", out.splitlines()[-1], "different: 30 of 32 lines alike")
    suite.equal("--all, alike", run(MARK, "--all", FIRST, answers_of(FIRST)), ("32 lines alike\n", "", 0))


# ---- files that are short, long, or of another kind


def check_lengths(suite, folder):
    text = answers_of(FIRST).read_text()
    short, lines = folder.write("short", "".join(text.splitlines(True)[:20])), "the paper has 32 lines\n"
    suite.equal("short answers", run(MARK, FIRST, short), ("the answers end before line 21: " + lines, "", 1))
    suite.equal("no answers", run(MARK, FIRST, "/dev/null"), ("the answers end before line 1: " + lines, "", 1))
    long = folder.write("long", text + "ev=up ans=8 drop=0 rfu=00 pkt= msg=\n")
    said = "the answers have 33 lines, the paper 32: line 33 answers nothing\n"
    suite.equal("long answers", run(MARK, FIRST, long), (said, "", 1))
    suite.equal("long answers, --all", run(MARK, "--all", FIRST, long), (said + "different: 32 of 32 lines alike\n", "", 1))
    blank = folder.write("blank", text + "\n")
    suite.equal("a blank line more", run(MARK, FIRST, blank), (said, "", 1))
    whole = (f"{len(text.splitlines())} lines alike\n", "", 0)
    suite.equal("no line end at the end", run(MARK, FIRST, folder.write("open", text.rstrip("\n"))), whole)
    one = [folder.write("one", "ev=up arg="), folder.write("its answer", "ev=up ans=8 drop=0 rfu=00 pkt= msg=")]
    suite.equal("one line", run(MARK, *one), ("1 line alike\n", "", 0))


def check_line_ends(suite, folder):
    paper, text = FIRST.read_bytes(), answers_of(FIRST).read_bytes()
    crlf = folder.write("crlf", text.replace(b"\n", b"\r\n"))
    told = f"{crlf}: lines end in CRLF; compared without the CR\n"
    suite.equal("answers with CRLF", run(MARK, FIRST, crlf), ("32 lines alike\n", told, 0))
    bom = folder.write("bom", b"\xef\xbb\xbf" + text)
    told = f"{bom}: begins with a byte order mark; compared without it\n"
    suite.equal("answers with a byte order mark", run(MARK, FIRST, bom), ("32 lines alike\n", told, 0))
    for name, octets, words, count in [
        ("CRLF", paper.replace(b"\n", b"\r\n"), "lines end in CRLF", 32),
        ("a byte order mark", b"\xef\xbb\xbf" + paper, "begins with a byte order mark", 1),
    ]:
        spoilt = folder.write("paper", octets)
        out, complaint, status = run(MARK, "--all", spoilt, answers_of(FIRST))
        suite.holds(f"a paper with {name} is told", f"{spoilt}: {words}" in complaint, complaint)
        bad = out.count("ev, played: bad, no line of the sheet")
        suite.equal(f"a paper with {name} differs", (bad, status), (count, 1))


def check_files(suite, folder):
    nowhere, empty = folder.path / "nowhere", folder.write("empty", "")
    due = [
        ("no such paper", [nowhere, answers_of(FIRST)], f"{nowhere} cannot be read: No such file or directory"),
        ("no such answers", [FIRST, nowhere], f"{nowhere} cannot be read: No such file or directory"),
        ("a folder for a paper", [folder.path, answers_of(FIRST)], f"{folder.path} cannot be read: Is a directory"),
        ("an empty paper", [empty, answers_of(FIRST)], f"{empty} is empty: there is no line to play"),
    ]
    for name, words, complaint in due:
        suite.equal(name, run(MARK, *words), ("", f"mark-paper: {complaint}\n", 2))
    for words in ([], [FIRST], ["--some", FIRST, FIRST], [FIRST, FIRST, FIRST]):
        out, complaint, status = run(MARK, *words)
        suite.equal(f"{len(words)} words that are not taken", (out, "usage: mark-paper" in complaint, status), ("", True, 2))


# ---- programs that fail, and output that is lost


def check_play(suite, folder):
    stubs = [
        ("play with a status", "cat >/dev/null; exit 3", "play ended with status 3"),
        ("play that dies", "kill -9 $$", "play ended with status -9"),
        ("play that answers too few", "head -n 3", "play answered 3 lines of 32"),
        ("play that answers nothing", "cat >/dev/null", "play answered 0 lines of 32"),
    ]
    for number, (name, text, complaint) in enumerate(stubs):
        inner = copies(folder, f"play{number}", play=text)
        suite.equal(name, run(inner.path / "mark-paper", FIRST, answers_of(FIRST)), ("", f"mark-paper: {complaint}\n", 2))
    inner = copies(folder, "no-play")
    complaint = "mark-paper: play cannot be started: No such file or directory\n"
    suite.equal("no play", run(inner.path / "mark-paper", FIRST, answers_of(FIRST)), ("", complaint, 2))
    inner = copies(folder, "odd-card", play="cat")
    inner.write("docs/CARD.md", b"- 1: \xff.\n")
    out, complaint, status = run(inner.path / "mark-paper", FIRST, folder.write("other", "ev=up ans=1\n" * 32))
    suite.equal("any other fault is no difference", (out, "UnicodeDecodeError" in complaint, status), ("", True, 2))
    inner = copies(folder, "no-card", play="cat")
    inner.write("docs/CARD.md", "# no numbers\n")
    out, complaint, status = run(inner.path / "mark-paper", FIRST, answers_of(FIRST))
    suite.holds("a card without numbers", "CARD.md has no numbers" in complaint and status == 2, f"{complaint} {status}")


def check_lost(suite, program, *words):
    lost = f"{program.name}: the output is lost: "
    with open("/dev/full", "w") as full:
        _, complaint, status = run(program, *words, stdout=full)
    suite.equal(f"{program.name}, a full disk", (complaint, status), (lost + "No space left on device\n", 2))
    _, complaint, status = run("sh", "-c", '"$@" >&-', "sh", program, *words)
    suite.equal(f"{program.name}, no output", (complaint, status), (lost + "Bad file descriptor\n", 2))
    reading, writing = os.pipe()
    os.close(reading)
    with os.fdopen(writing, "w") as gone:
        _, complaint, status = run(program, *words, stdout=gone)
    suite.equal(f"{program.name}, a reader that has gone", (complaint, status), (lost + "Broken pipe\n", 2))


def check_places(suite, folder):
    link = folder.path / "linked"
    link.symlink_to(MARK)
    words = [os.path.relpath(path, folder.path) for path in (FIRST, answers_of(FIRST))]
    suite.equal("from another folder, through a link", run(link, *words, cwd=folder.path), ("32 lines alike\n", "", 0))
    blanks = Folder(folder.path / "a folder with blanks")
    paper, answers = blanks.write("a paper", FIRST.read_bytes()), blanks.write("its answers", answers_of(FIRST).read_bytes())
    suite.equal("names with blanks", run(MARK, paper, answers), ("32 lines alike\n", "", 0))
    out = run("bash", "-c", f'"$0" <(cat "{paper}") <(cat "{answers}")', MARK)
    suite.equal("papers through pipes", out, ("32 lines alike\n", "", 0))


# ---- the transcript

# answers a line with the words that it was given, in the characters of brief
ECHO = "tr '=' ' '"
NO_FORM = ["quit", "push 2", "", "ev=up arg=\r", "ev=up arg=a1", " ev=up arg=", "ev=quit", "ev=up\targ=", "ev=up arg=\0", "é"]


def check_stubs(suite, folder):
    inner = copies(folder, "echo", keys='[ "$*" = --brief ] && ' + ECHO)
    paper = inner.write("paper", "ev=up arg=\nev=push arg=02\n")
    due = ("1\tev=up arg=\tev up arg \n2\tev=push arg=02\tev push arg 02\n", "", 0)
    suite.equal("number, line and words", run(inner.path / "transcript", paper), due)
    for line in NO_FORM:
        paper = inner.write("paper", f"{line}\nev=up arg=")
        out, _, status = run(inner.path / "transcript", paper)
        told = [text.split("\t")[-1] for text in out.splitlines()]
        suite.equal(f"{line!r} is no key", (told, status), (["ev bad", "ev up arg "], 0))
    stubs = [
        ("keys with a status", {"keys": ECHO + "; exit 3"}, "keys ended with status 3"),
        ("keys that answer too few", {"keys": "head -n 1 | " + ECHO}, "keys answered 1 lines of 32"),
        ("keys that do not speak in brief", {"keys": "cat"}, "keys did not answer line 1 in brief: ev=command arg=000001"),
        ("keys that cannot be built", {"build": "exit 1"}, "front/build ended with status 1"),
        ("no build of the keys", {}, "front/build cannot be started: No such file or directory"),
    ]
    for number, (name, programs, complaint) in enumerate(stubs):
        inner = copies(folder, f"keys{number}", **programs)
        suite.equal(name, run(inner.path / "transcript", FIRST), ("", f"transcript: {complaint}\n", 2))
    suite.equal("no such paper to tell", run(TRANSCRIPT, folder.path / "nowhere")[1:],
                (f"transcript: {folder.path / 'nowhere'} cannot be read: No such file or directory\n", 2))


def check_build(suite, folder):
    """The keys are made where they are not there, and again where a source is newer."""
    build = f"""cd "$(dirname "$0")/.." && mkdir -p build && echo x >>count
printf '#!/bin/sh\\n%s\\n' "{ECHO}" >build/keys && chmod +x build/keys
"""
    inner = copies(folder, "built", build=build)
    counts = []
    for touched in (None, None, "front/keys.c", "include/nci_bench.h", "crates/a.rt"):
        if touched:
            os.utime(inner.write(touched, ""), (2**31, 2**31))
        run(inner.path / "transcript", FIRST)
        counts.append((inner.path / "count").read_text().count("x"))
    suite.equal("the keys are built where they must be", counts, [1, 1, 2, 3, 4])


def check_words(suite, folder):
    """With the keys as they are: a number first is the refusal that the sheet has, a word first a call that was taken."""
    lines = ["quit", "push 2", "", "ev=quit arg=", "ev=send arg=02", "ev=up arg=", "ev=air arg=09", "ev=push"]
    odd = folder.write("odd", "\n".join(lines) + "\n")
    for paper in [*EXAMPLES, odd]:
        lines = paper.read_text().splitlines()
        played = subprocess.run([ROOT / "play"], input=paper.read_bytes(), stdout=subprocess.PIPE, check=True).stdout.decode()
        numbers = [int(number) for number in re.findall(r"^ev=\w+ ans=(\d+)", played, re.M)]
        out, complaint, status = run(TRANSCRIPT, paper)
        rows = [row.split("\t") for row in out.splitlines()]
        heard = [int(words.split(",")[0]) if words[0].isdigit() else 0 for _, _, words in rows]
        wrong = [complaint] * (status != 0)
        wrong += [] if [row[:2] for row in rows] == [[str(i), line] for i, line in enumerate(lines, 1)] else ["other lines"]
        wrong += [f"line {i}: {rows[i - 1][2]}, ans={n}" for i, (n, m) in enumerate(zip(numbers, heard), 1) if n != m]
        suite.check(f"{paper.name} in words", wrong)


def main():
    suite = Suite("marking")
    with tempfile.TemporaryDirectory() as path:
        folder = Folder(path)
        check_alike(suite)
        marks = [check_changes, check_small_letters, check_every_octet, check_all, check_lengths, check_line_ends, check_files]
        for check in [*marks, check_play, check_places, check_stubs, check_build, check_words]:
            check(suite, folder)
        check_lost(suite, MARK, FIRST, answers_of(FIRST))
        check_lost(suite, MARK, "--all", FIRST, "/dev/null")
        check_lost(suite, copies(folder, "lost", keys=ECHO).path / "transcript", FIRST)
    return suite.end()


if __name__ == "__main__":
    sys.exit(main())
