#!/usr/bin/env python3
"""What the front end by keys has for those who work by ear: the brief form, the octets of a call, lines of the sheet, a log,
and that what is lost is said.

    keys.py            builds it and runs all tests; the last line is 'keys: N passed, M failed'
    keys.py --built    leaves the building out

A session in brief is in tests/data/brief.txt. Lines of the sheet, spoilt ones too, have to be answered as the program `paper`
does, and a log has to be answered by it as its session was. tests/front_run.py has the key run, tests/ear.py what an ear can tell
apart."""
import random
import re
import subprocess
import sys
import tempfile
from itertools import zip_longest
from pathlib import Path

from front_run import check_foretold, check_presses
from programs import ROOT, Suite, built
from worked import FIELDS, KEYS, NOTE, SECONDS, SEED, Worked, check_session, fed, fields, session, sheet_lines, unlike

# ---- lines of the sheet, and the log


def spoilt_lines(lines, count):
    """Lines of the sheet with characters changed; what begins with ev= alone is meant for the sheet."""
    rng = random.Random(SEED)
    for _ in range(count):
        line = list(rng.choice(lines))
        for _ in range(rng.choice([0, 1, 1, 2])):
            at = rng.randrange(3, len(line) + 1)
            line[at:at + rng.randrange(2)] = rng.choice(["", " ", "0", "F", "a", "G", "=", "00", "down", "\r", "\0"])
        yield "".join(line) + "00" * rng.choice([0] * 40 + [1050])


def check_sheet(suite):
    asked, answered = sheet_lines()
    out, complaints, status = fed([KEYS], "\n".join(asked).encode())
    suite.check("the sheet's lines", unlike(fields(out.splitlines()), answered))
    suite.equal("the sheet's lines, exit status", (complaints, status), ("", 0))
    lines = list(spoilt_lines(asked, 4000))
    octets = "\n".join(lines).encode()
    ours, theirs = fields(fed([KEYS], octets)[0].splitlines()), fed([built("paper")], octets)[0].splitlines()
    wrong = [f"{line!r}: {one}, {other}" for line, one, other in zip_longest(lines, ours, theirs) if one != other]
    suite.check("spoilt lines of the sheet", wrong, f"{len(lines)} lines")


def calls(lines):
    return [line for line in fields(lines) if " drop=" in line]


def check_log(suite, folder):
    """Two sessions in one log, by keys and by lines of the sheet; the sheet answers it as they were answered."""
    log = folder / "log"
    keys = [key for key, _ in session() + session("brief") if key not in ("quit", "brief", "full", "again")]
    first = fed([KEYS, "--log", log], "\n".join(keys).encode())[0].splitlines()
    second = fed([KEYS, "--log", log], "\n".join(sheet_lines()[0]).encode())[0].splitlines()
    start = "ev=fresh ans=0 drop=0 rfu=00 pkt= msg="
    due = [start, *calls(first), start, *calls(second)]
    for name, program in (("paper", built("paper")), ("keys", KEYS)):
        suite.check(f"a log, answered by {name}", unlike(fields(fed([program], log.read_bytes())[0].splitlines()), due))
    brief = folder / "brief"
    fed([KEYS, "--brief", "--log", brief], "\n".join(keys).encode())
    suite.check("a log in brief", unlike(brief.read_text().splitlines(), log.read_text().splitlines()[:len(calls(first)) + 1]))


# ---- what is lost


def ended(command, **streams):
    """Complaints and exit status of a program that is given keys in a file."""
    done = subprocess.run(command, stderr=subprocess.PIPE, timeout=SECONDS, **streams)
    return done.stderr.decode(), done.returncode


def check_lost(suite, folder):
    """An answer that cannot be written, keys that cannot be read, a log that cannot be written: each is said."""
    keys = folder / "keys.txt"
    keys.write_text("reset\ndown\n")
    for name, words, shell in [
        ("a full disk", "the answer cannot be written: No space left on device", f"< '{keys}' > /dev/full"),
        ("a closed output", "the answer cannot be written: Bad file descriptor", f"< '{keys}' >&-"),
        ("a closed output and a log", "the answer cannot be written: Bad file descriptor", f"--log '{folder}/l' < '{keys}' >&-"),
        ("a closed input", "the input cannot be read: Bad file descriptor", "<&- > /dev/null"),
        ("a folder as input", "the input cannot be read: Is a directory", f"< '{folder}' > /dev/null"),
        ("a log on a full disk", "the log /dev/full cannot be written: No space left on device",
         f"--log /dev/full < '{keys}' > /dev/null"),
        ("a log in no folder", f"the log {folder}/no/log cannot be opened: No such file or directory",
         f"--log '{folder}/no/log' < '{keys}' > /dev/null"),
    ]:
        suite.equal(name, ended(["bash", "-c", f"'{KEYS}' {shell}"]), (f"keys: {words}\n", 1))
    late = f"trap '' XFSZ; ulimit -f 1; yes power | head -500 | '{KEYS}' --log '{folder}/late' | wc -l; exit ${{PIPESTATUS[2]}}"
    done = subprocess.run(["bash", "-c", late], capture_output=True, timeout=SECONDS)
    suite.equal("a log that is full later", (done.stderr.decode(), done.returncode),
                (f"keys: the log {folder}/late cannot be written: File too large\n", 1))
    logged = (folder / "late").read_text().count("\n")
    suite.equal("a log that is full later, keys answered", int(done.stdout), logged)
    suite.equal("a log that is not touched", (folder / "l").exists(), False)
    for options in (["--log"], ["--loud"], ["--log", folder / "a", "--log", folder / "b"], ["keys.txt"]):
        words, status = ended([KEYS, *options], stdin=subprocess.DEVNULL)
        usage = words.startswith("keys: --brief and --log FILE are all")
        suite.holds(f"options {options}", usage and status == 2, (words, status))


def check_line_ends(suite):
    keys = [key for key, _ in session("brief")]
    one, other = fed([KEYS], "\n".join(keys).encode()), fed([KEYS], "\r\n".join(keys).encode())
    suite.equal("no word of line ends", one[1:], ("", 0))
    suite.equal("CRLF is said once", other[1:], (NOTE, 0))
    changed = [key for key, a, b in zip(keys, one[0].splitlines(), other[0].splitlines()) if a != b]
    suite.equal("a BOM is said", fed([KEYS], b"\xEF\xBB\xBFpower\npower\n")[1:], (NOTE, 0))
    suite.equal("keys with CRLF", {key[:3] for key in changed} - {"aga", "mor", "oct"}, {"ev="})


# ---- the brief form


# keys whose calls have no octets, as far as they put, take and hand out nothing
ALONE = ("power", "down", "up", "credit", "reply", "read", "run")
NO_OCTETS = {*ALONE, *(f"ev={name} arg=" for name in ALONE)}
PART = re.compile("(down|up|message|taken|typed|no more)(?: [0-9]+ of [0-9]+)?(?: length [0-9]+| from octet [0-9]+)?")
WORDS = {word: f"{value:X}" for value, word in enumerate("alfa bravo charlie delta echo foxtrot".split(), 10)}


def said_octets(lines):
    """The octets of lines of octets and more, by the name of their part."""
    parts = {}
    for line in lines:
        label, *octets = line.removesuffix(", more").split(", ")
        part = PART.fullmatch(label)[1]
        parts[part] = parts.get(part, "") + "".join(WORDS.get(digit, digit) for octet in octets for digit in octet.split())
    return parts


def split(packets):
    """The packets of a field pkt."""
    while packets:
        length = 6 + 2 * int(packets[4:6], 16)
        yield packets[:length]
        packets = packets[length:]


class Wires:
    """The packets on both wires, by the fields of lines. Behind run they are not known until it says that it is at rest."""

    def __init__(self):
        self.down, self.up, self.known = [], [], True

    def taken(self, event, answer, packets, rests):
        """The packet that a call takes, or None where it is not known; those that it puts are put."""
        if event == "run" or (event in ("fresh", "power") and answer == "0"):
            self.down, self.up, self.known = [], [], event != "run" or rests
        if event in ("down", "up") and not self.known:
            return None
        wire = {"down": self.down, "up": self.up}.get(event)
        first = wire.pop(0) if wire and answer == "0" else ""
        (self.down if event in ("command", "push") else self.up).extend(split(packets))
        return first


def check_octets(suite):
    """What octets and more say is the packets put, the message, and the packet taken, eight octets a line."""
    longest = ["fresh", "command 1 3 " + "0A" * 255, *["down"] * 9]
    keys = [key for key, _ in session() if key != "quit"] + longest + sheet_lines()[0][:400]
    wires = Wires()
    for key, (line, *heard) in zip(keys, all_octets(keys)):
        said, found = said_octets(heard), FIELDS.fullmatch(line)
        few = all(words.removesuffix(", more").count(", ") <= 8 for words in heard)
        suite.holds(f"octets of {key}, eight a line", few, heard)
        if found is None:
            continue
        parts = said.get("down", "") + said.get("up", ""), said.get("message", ""), said.get("taken", "")
        taken = wires.taken(found[1], found[2], found[5], found[8].endswith("; at rest"))
        due = found[5], found[6].strip("-"), parts[2] if taken is None else taken
        suite.equal(f"octets of {key}", parts, due)
        suite.equal(f"octets of {key}, typed", "typed" in said, not any(due) and key not in NO_OCTETS)


def all_octets(keys):
    """Of each key its full line, then what octets and more say in brief, to the end."""
    lines = [line for key in keys for line in ("full", key, "brief", "octets", *["more"] * 135)]
    answers = fed([KEYS], "\n".join(lines).encode())[0].splitlines()
    for start in range(0, len(answers), 139):
        said = answers[start + 3:start + 139]
        yield [answers[start + 1], *said[:next(i for i, line in enumerate(said) if not line.endswith(", more")) + 1]]


def check_page(suite):
    """The session of docs/BY-EAR.md is heard as it says."""
    page = (ROOT / "docs" / "BY-EAR.md").read_text()
    section = page.split("## A first session")[1].split("## ")[0]
    typed = re.findall("^(?:Type|Then) (.*?)[.:]", section, re.M)
    keys = [key.strip() for keys in typed for key in re.split("[,;]", keys)]
    lines = re.findall("^    (.*)$", section, re.M)
    suite.holds("docs/BY-EAR.md has a session", len(lines) >= 15)
    suite.check("docs/BY-EAR.md, the session", unlike(fed([KEYS, "--brief"], "\n".join(keys).encode())[0].splitlines(), lines))


def check_again(suite):
    """again is the last answer, in either form."""
    with Worked(suite, False) as full, Worked(suite, False, KEYS, "--brief") as brief:
        for key, _ in session("brief"):
            if key in ("quit", "full", "brief", "again"):
                continue
            one, other = full.press(key), brief.press(key)
            heard = [full.press("again"), full.press("brief"), full.press("again"), brief.press("again"), full.press("full")]
            suite.equal(f"again after {key}", heard, [one, "brief", other, other, 'ev=full ans=0 says="full"'])


def main():
    suite = Suite("keys")
    if sys.argv[1:] != ["--built"]:
        suite.equal("front/build", subprocess.run([ROOT / "front" / "build"]).returncode, 0)
    for terminal in (True, False):
        check_session(suite, terminal, "brief", KEYS, "--brief")
    check_sheet(suite)
    check_line_ends(suite)
    check_octets(suite)
    check_presses(suite)
    check_foretold(suite)
    check_again(suite)
    check_page(suite)
    with tempfile.TemporaryDirectory() as folder:
        check_log(suite, Path(folder))
        check_lost(suite, Path(folder))
    return suite.end()


if __name__ == "__main__":
    sys.exit(main())
