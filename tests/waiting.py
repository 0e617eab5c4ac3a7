#!/usr/bin/env python3
"""The program `paper`, and `./play`, before someone who waits for each answer, and at the ends of its input and output.

    waiting.py [--program PATH] [--seed N]

What is answered comes from the second implementation's `play`, which has the same input from a file. Each test below is
one passed or failed."""
import argparse
import os
import select
import signal
import subprocess
import sys
import tempfile
import termios
import time
from pathlib import Path

from programs import ROOT, Suite, built, output, second

LINES = 1000
# an answer that takes longer than this, in seconds, was held back
HELD_BACK = 20
# long enough for a program to answer a line that it should still wait for
A_WHILE = 0.2
THREE_LINES = b"ev=command arg=000001\nev=down arg=\nev=push arg=02\n"
THREE_ANSWERS = (
    b"ev=command ans=0 drop=0 rfu=00 pkt=20000101 msg=\n"
    b"ev=down ans=0 drop=0 rfu=00 pkt=400001006000050201200000 msg=\n"
    b"ev=push ans=6 drop=0 rfu=00 pkt= msg=\n"
)
BAD = b"ev=bad ans=3\n"
MEGABYTE = 1 << 20
# what a terminal does not hand on as it is typed, and the longest line that it takes
KEYS = {*range(32), 127}
TYPED = 4000


class Talk:
    """A program that runs, and the two ends that one talks to it by."""

    def __init__(self, program, terminal=False, **more):
        self.terminal = terminal
        if terminal:
            self.write_to, theirs = os.openpty()
            as_typed(theirs)
            self.read_from = self.write_to
            ends = {"stdin": theirs, "stdout": theirs}
        else:
            theirs_in, self.write_to = os.pipe()
            self.read_from, theirs_out = os.pipe()
            ends = {"stdin": theirs_in, "stdout": theirs_out}
        self.process = subprocess.Popen([program], **ends, stderr=subprocess.DEVNULL, **more)
        for end in set(ends.values()):
            os.close(end)

    def __enter__(self):
        return self

    def __exit__(self, *_):
        self.process.kill()
        self.process.wait()
        for end in {self.read_from, self.write_to} - {None}:
            os.close(end)

    def say(self, octets):
        """Writes all of it. A pipe and a terminal may take it in parts."""
        while octets:
            octets = octets[os.write(self.write_to, octets) :]

    def answer(self, wait=HELD_BACK):
        """The next answer, or what there is of it after so many seconds."""
        told, until = b"", time.monotonic() + wait
        while not told.endswith(b"\n"):
            ready, _, _ = select.select([self.read_from], [], [], max(0, until - time.monotonic()))
            more = os.read(self.read_from, 1) if ready else b""
            if not more:
                break
            told += more
        return told

    def ended(self):
        """The status that the program ends with, or none where it goes on."""
        try:
            return self.process.wait(HELD_BACK)
        except subprocess.TimeoutExpired:
            return None

    def end_of_input(self):
        """The end of a pipe, or the key that tells a terminal's."""
        if self.terminal:
            self.say(b"\x04")
        else:
            os.close(self.write_to)
            self.write_to = None

    def close_output(self):
        os.close(self.read_from)
        self.read_from = None


def as_typed(terminal):
    """A terminal that hands on a line when it is whole, as it is by default, without echo; answers come as written."""
    settings = termios.tcgetattr(terminal)
    settings[1] &= ~termios.OPOST
    settings[3] &= ~termios.ECHO
    termios.tcsetattr(terminal, termios.TCSANOW, settings)


def differs(told, expected):
    return [] if told == expected else [f"{told[:300]!r}, expected {expected[:300]!r}"]


# ---- the tests: what is wrong, from a program and from one that is right


def answers_at_once(program, play, lines, terminal):
    """Each line is answered before the next one is written."""
    expected = output(play, b"".join(line + b"\n" for line in lines))[0].splitlines(keepends=True)
    with Talk(program, terminal) as talk:
        for number, (line, due) in enumerate(zip(lines, expected, strict=True), 1):
            talk.say(line + b"\n")
            told = talk.answer()
            if told != due:
                return [f"line {number}, {line[:200]!r}: {told!r}, expected {due!r}"]
        talk.end_of_input()
        return differs(str(talk.ended()), "0")


def on_a_pipe(program, play, lines):
    return answers_at_once(program, play, lines[:LINES], False)


def on_a_terminal(program, play, lines):
    typed = [line for line in lines if len(line) <= TYPED and not KEYS & set(line)]
    return answers_at_once(program, play, typed[:LINES], True)


def last_line_typed(program, play, lines):
    """The last line has no line feed: the first end key hands it on, the second tells the end. A terminal tells it once for
    each key, so that a program which reads on needs a third."""
    with Talk(program, True) as talk:
        talk.say(THREE_LINES[:-1])
        told = [talk.answer(), talk.answer()]
        for _ in range(3):
            talk.end_of_input()
        return differs(b"".join([*told, talk.answer()]), THREE_ANSWERS) + differs(str(talk.ended()), "0")


def octet_by_octet(program, play, lines):
    """A line that comes in parts is answered once, and not before its line feed."""
    with Talk(program) as talk:
        for octet in THREE_LINES[:21]:
            talk.say(bytes([octet]))
        early = talk.answer(A_WHILE)
        talk.say(THREE_LINES[21:])
        return differs(early, b"") + differs(b"".join(talk.answer() for _ in range(3)), THREE_ANSWERS)


def all_at_once(program, play, lines):
    """Many lines in one write, while nobody reads: all are answered."""
    paper = b"".join(line + b"\n" for line in lines)
    return differs(output(program, paper)[0], output(play, paper)[0])


def last_line_unended(program, play, lines):
    told = [output(program, octets) for octets in (THREE_LINES, THREE_LINES[:-1])]
    return differs(repr(told), repr([(THREE_ANSWERS, 0)] * 2))


def no_lines(program, play, lines):
    """No octet is no line; a line feed is one."""
    told = [output(program, octets) for octets in (b"", b"\n", b"\n\n", b"x")]
    return differs(repr(told), repr([(b"", 0), (BAD, 0), (BAD * 2, 0), (BAD, 0)]))


def megabyte(program, play, lines):
    """A line of a megabyte is one bad line, with its line feed and without, and touches nothing."""
    first, rest = THREE_LINES.split(b"\n", 1)
    long_ones = [b"x" * MEGABYTE, b"\0" * MEGABYTE, b"ev=send arg=02" + b"A5" * (MEGABYTE // 2)]
    due = THREE_ANSWERS.split(b"\n", 1)
    wrong = []
    for line in long_ones:
        told = output(program, b"\n".join([first, line, rest + line]))
        wrong += differs(repr(told), repr((b"\n".join([due[0], BAD + due[1] + BAD]), 0)))
    return wrong


def longest_line(program, play, lines):
    """2,100 characters are a call that is refused, 2,101 are too many."""
    told = [output(program, b"ev=%b arg=%b\n" % (name, b"02" * n))[0] for name, n in ((b"send", 1044), (b"air", 1045))]
    return differs(told[0], b"ev=send ans=3 drop=0 rfu=00 pkt= msg=\n") + differs(told[1], BAD)


def ends_without_output(program, play, lines, **more):
    """Nobody reads its answers any more: it ends, though its input is open and has more."""
    with Talk(program, **more) as talk:
        talk.say(THREE_LINES)
        told = b"".join(talk.answer() for _ in range(3))
        talk.close_output()
        talk.say(THREE_LINES)
        return differs(told, THREE_ANSWERS) + ([] if talk.ended() is not None else ["it goes on"])


def ends_without_signal(program, play, lines):
    """The same where a write that nobody reads fails and does not end the program by itself."""

    def ignore():
        signal.signal(signal.SIGPIPE, signal.SIG_IGN)

    return ends_without_output(program, play, lines, restore_signals=False, preexec_fn=ignore)


TESTS = (
    on_a_pipe, on_a_terminal, last_line_typed, octet_by_octet, all_at_once, last_line_unended, no_lines, megabyte,
    longest_line, ends_without_output, ends_without_signal,
)


def paper(seed):
    """The lines of a random paper, more than a test takes: a terminal does not hand on all of them."""
    with tempfile.TemporaryDirectory() as directory:
        subprocess.run([second("papers"), directory, "1", str(2 * LINES), str(seed)], stdout=subprocess.DEVNULL, check=True)
        return (Path(directory) / "0001").read_bytes().split(b"\n")


def main():
    parser = argparse.ArgumentParser()
    parser.add_argument("--program", type=Path)
    parser.add_argument("--seed", type=int, default=1)
    given, suite = parser.parse_args(), Suite("waiting")
    programs = [given.program] if given.program else [built("paper"), ROOT / "play"]
    play, lines = second("play"), paper(given.seed)
    for program in programs:
        # a first run may build, which nobody waits for below
        output(program, b"")
        for test in TESTS:
            suite.check(f"{program.name}, {test.__name__.replace('_', ' ')}", test(program, play, lines))
    return suite.end()


if __name__ == "__main__":
    sys.exit(main())
