"""The front end by keys while it is worked, at a terminal or through a pipe: what its suites share."""
import os
import pty
import re
import select
import subprocess
import termios
from itertools import zip_longest

from programs import ROOT

KEYS = ROOT / "build" / "keys"
# for an answer, or for a program to end
SECONDS = 10
SEED = 13
NOTE = "keys: note: lines end in CRLF, or begin with a BOM; README.md says how to convert\n"

HEX = "(?:[0-9A-F]{2})*"
# a line's fields in their order; the number of moves is None but in a line of run
FIELDS = re.compile(
    f"ev=([a-z]+) ans=([0-9]+) drop=([01]) rfu=([0-9A-F]{{2}}) pkt=({HEX}) msg=(-|{HEX})(?: moves=([0-9]+))? says=\"(.*)\""
)


# ---- keys at work


def plain(terminal):
    """No echo, and line ends as they are written."""
    mode = termios.tcgetattr(terminal)
    mode[1] &= ~termios.OPOST
    mode[3] &= ~termios.ECHO
    termios.tcsetattr(terminal, termios.TCSANOW, mode)


class Silent(Exception):
    """A key that was not answered."""


class Worked:
    """The program while it is worked, at a terminal or through pipes. A key without an answer is a failure and ends it."""

    def __init__(self, suite, terminal, *command):
        self.suite = suite
        command = command or [KEYS]
        if terminal:
            self.typing, behind = pty.openpty()
            plain(behind)
            self.process = subprocess.Popen(command, stdin=behind, stdout=behind)
            os.close(behind)
            self.hearing = self.typing
        else:
            self.process = subprocess.Popen(command, stdin=subprocess.PIPE, stdout=subprocess.PIPE, bufsize=0)
            self.typing, self.hearing = self.process.stdin.fileno(), self.process.stdout.fileno()

    def __enter__(self):
        return self

    def __exit__(self, _, error, __):
        self.process.kill()
        self.process.wait()
        if isinstance(error, Silent):
            self.suite.holds(f"an answer to {error}", False, "there is none")
        return isinstance(error, Silent)

    def press(self, key):
        """Types a line and gives what is heard then, without the line feed at its end."""
        heard = b""
        try:
            os.write(self.typing, key.encode() + b"\n")
            while not heard.endswith(b"\n"):
                more = select.select([self.hearing], [], [], SECONDS)[0] and os.read(self.hearing, 65536)
                if not more:
                    raise Silent(repr(key[:80]))
                heard += more
        except OSError:
            raise Silent(repr(key[:80]))
        return heard.decode().removesuffix("\n")


def fed(program, octets):
    """Its output, its complaints and its exit status for an input that is there at once."""
    done = subprocess.run(program, input=octets, capture_output=True, timeout=3 * SECONDS)
    return done.stdout.decode("latin-1"), done.stderr.decode("latin-1"), done.returncode


# ---- the sessions of tests/data


def session(name="keys"):
    """Keys and their answers: a key's line begins with >, its answer follows."""
    lines = (ROOT / "tests" / "data" / f"{name}.txt").read_text().splitlines()
    lines = [line for line in lines if line and not line.startswith("#")]
    return [(key.removeprefix("> "), answer) for key, answer in zip(lines[::2], lines[1::2])]


def check_session(suite, terminal, name="keys", *command):
    with Worked(suite, terminal, *command) as worked:
        for n, (key, answer) in enumerate(session(name), 1):
            where = f"{name} on a {'terminal' if terminal else 'pipe'}"
            suite.equal(f"{where}, key {n}, {key}", worked.press(key), answer)
        suite.equal(f"{name}, exit status after quit", worked.process.wait(SECONDS), 0)


# ---- lines


def sheet_lines():
    """The lists as lines of the sheet, and what is answered."""
    lines = re.findall("^ev=.*$", (ROOT / "tests" / "data" / "lists.txt").read_text(), re.M)
    return lines[::2], lines[1::2]


def fields(lines):
    """Lines of keys without their words."""
    return [line.split(" says=")[0] for line in lines]


def unlike(lines, due):
    """Lines that are not those due."""
    return [f"line {n}: {one!r}, expected {other!r}" for n, (one, other) in enumerate(zip_longest(lines, due), 1) if one != other]
