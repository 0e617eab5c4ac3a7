"""What the suites share: the count of what was run, where programs are, and groups of lines through a program."""
import os
import subprocess
from itertools import zip_longest
from pathlib import Path

ROOT = Path(__file__).resolve().parent.parent
# more than any run here takes, on a machine that has other work
PATIENCE = 300
# of the failures of one test, how many are told
TOLD = 5


def built(name):
    """A proved program, which `./test` builds before the suites that run it."""
    path = ROOT / "target" / "bin" / name
    if not path.exists():
        raise SystemExit(f"{path} is not there: ./test builds it")
    return path


def second(name):
    """A program of the second implementation."""
    command = ["cargo", "build", "--release", "--locked", "--quiet"]
    subprocess.run(command, cwd=ROOT / "second", env={**os.environ, "CARGO_NET_OFFLINE": "true"}, check=True)
    return ROOT / "second" / "target" / "release" / name


def output(program, octets):
    """What a program writes for an input, and the status that it ends with."""
    ran = subprocess.run([program], input=octets, capture_output=True, timeout=PATIENCE)
    for line in ran.stderr.decode("ascii", "replace").splitlines():
        # random lines end in CR now and then
        if not line.startswith("paper: note: "):
            print(line)
    return ran.stdout, ran.returncode


class Suite:
    """Counts what was run: a test passed where nothing was found wrong. Every suite in Python counts here, in one thread."""

    def __init__(self, name):
        self.name, self.passed, self.failed = name, 0, 0

    def check(self, what, wrong, said=""):
        """`wrong` has a text for each thing found; `said` tells what was run, where that is worth a line."""
        self.failed += bool(wrong)
        self.passed += not wrong
        words = [said] * bool(said) + [f"{len(wrong)} wrong"] * bool(wrong)
        if words:
            print(f"{what}: {', '.join(words)}")
        for text in wrong[:TOLD]:
            print(f"  {text}")

    def holds(self, what, good, seen="not so"):
        """A test of yes or no; `seen` tells what there was instead."""
        self.check(what, [] if good else [seen])

    def equal(self, what, got, due):
        self.holds(what, got == due, f"{got!r}, expected\n  {due!r}")

    def end(self):
        """The suite's last line, and its exit status."""
        print(f"{self.name}: {self.passed} passed, {self.failed} failed")
        return 1 if self.failed else 0


# ---- programs that answer a line with a line


def told(program, lines):
    """The lines that a program answers with, and what is wrong with the run itself. The last line of the input has no line
    end."""
    written, status = output(program, "\n".join(lines).encode())
    wrong = [] if status == 0 else [f"ended with status {status}"]
    if not written.endswith(b"\n"):
        wrong.append("the last line has no line end")
    return written.decode("ascii", "replace").splitlines(), wrong


def run_group(suite, program, name, lines, line_out):
    """Runs a group of lines, one test, and gives what the program answered."""
    answers, wrong = told(program, lines)
    for line, answer, due in zip_longest(lines, answers, map(line_out, lines)):
        if answer != due:
            wrong.append(f"{line!r}: {answer!r}, expected {due!r}")
    suite.check(name, wrong, f"{len(lines)} cases")
    return answers


def spaced(lines, count):
    """So many of the lines, the first and the last among them."""
    if len(lines) <= count:
        return list(lines)
    return [lines[i * (len(lines) - 1) // (count - 1)] for i in range(count)]


def stored(crate, lines, line_out):
    """The input and the output that stand in a program's crate, made from some lines: `rt ci` runs the program on
    them."""
    folder = ROOT / "crates" / crate
    return {folder / "stdin": "\n".join(lines), folder / "stdout": "".join(line_out(line) + "\n" for line in lines)}


def write_stored(files):
    for path, text in files.items():
        path.write_text(text)
    return 0


def check_stored(suite, files):
    """They are those made here, one test each."""
    for path, text in files.items():
        same = path.exists() and path.read_text() == text
        suite.check(f"{path.relative_to(ROOT)}", [] if same else ["is not what is made here; --write writes it"])
