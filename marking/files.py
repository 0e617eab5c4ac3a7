"""What the marking programs read, run and write. Whatever fails is one line on standard error and status 2."""
import errno
import os
import subprocess
import sys
from pathlib import Path

ROOT = Path(__file__).resolve().parent.parent
CANNOT = 2
BOM = b"\xef\xbb\xbf"


class Cannot(Exception):
    """What cannot be read, played or written."""


def note(text):
    """A remark on standard error, where there is one."""
    try:
        print(text, file=sys.stderr, flush=True)
    except (OSError, AttributeError):
        pass


def read(path):
    """A file's octets."""
    try:
        return Path(path).read_bytes()
    except OSError as fault:
        raise Cannot(f"{path} cannot be read: {fault.strerror}")


def lines(octets):
    """The lines of a text; the last may have no line end."""
    found = octets.split(b"\n")
    return found[:-1] if found[-1] == b"" else found


def shown(line):
    """A line in printable characters."""
    return line.decode("latin-1").encode("unicode_escape").decode("ascii")


def read_paper(path):
    """A paper's octets, as they are played. The form of a line is fixed, so line ends of another kind are told, not mended."""
    octets = read(path)
    if not octets:
        raise Cannot(f"{path} is empty: there is no line to play")
    if octets.startswith(BOM):
        note(f"{path}: begins with a byte order mark, which makes line 1 a bad line")
    if b"\r\n" in octets:
        note(f"{path}: lines end in CRLF, which makes each of them a bad line; tr -d '\\r' takes it out")
    return octets


def read_answers(path):
    """The lines of an answers file, without a byte order mark and the CR of line ends, which are told."""
    octets = read(path)
    if octets.startswith(BOM):
        note(f"{path}: begins with a byte order mark; compared without it")
    if b"\r\n" in octets:
        note(f"{path}: lines end in CRLF; compared without the CR")
    return lines(octets.removeprefix(BOM).replace(b"\r\n", b"\n"))


def run(command, octets, what):
    """What a program writes for an input. Its complaints go to standard error."""
    try:
        done = subprocess.run(command, input=octets, stdout=subprocess.PIPE)
    except OSError as fault:
        raise Cannot(f"{what} cannot be started: {fault.strerror}")
    if done.returncode != 0:
        raise Cannot(f"{what} ended with status {done.returncode}")
    return done.stdout


def play(paper):
    """The answers to a paper, a line for each of its lines."""
    played = lines(run([ROOT / "play"], paper, "play"))
    if len(played) != len(lines(paper)):
        raise Cannot(f"play answered {len(played)} lines of {len(lines(paper))}")
    return played


def done(program, work):
    """Runs a program's work, which gives its status and the lines that it says, and writes these: the status is 0 or 1 only where
    all of them were written."""
    try:
        status, said = work()
    except Cannot as fault:
        note(f"{program}: {fault}")
        return CANNOT
    except Exception as fault:  # status 1 would say that something differs
        note(f"{program}: {type(fault).__name__}: {fault}")
        return CANNOT
    try:
        if sys.stdout is None:
            raise OSError(errno.EBADF, os.strerror(errno.EBADF))
        sys.stdout.write("".join(line + "\n" for line in said))
        sys.stdout.flush()
        return status
    except OSError as fault:
        note(f"{program}: the output is lost: {fault.strerror}")
        # what is left in the buffer cannot be written either
        os.dup2(os.open(os.devnull, os.O_WRONLY), 1)
    return CANNOT
