#!/usr/bin/env python3
"""Random papers through the program `paper` and through the second implementation's `play`, compared line by line.

    papers.py [--program PATH] [--papers N] [--lines N] [--seed N]

The second implementation makes the papers (second/src/bin/papers.rs), anew in each run; the same seed makes the same
papers. A paper that is answered alike is one passed test. The papers of examples/ are played too, and held to the answers
that stand beside them."""
import argparse
import re
import subprocess
import sys
import tempfile
import time
from collections import Counter
from itertools import zip_longest
from pathlib import Path

from programs import ROOT, Suite, built, output, second

BAD = b"ev=bad ans=3"
# every call is taken and meets each of its refusals, credits come to the whole grant, profiles have both lengths, each
# loopback opens beside one with another grant, read meets reserved bits at 1 and drops, and presses of run make every move.
# Close and reset responses discard messages in hand.
COVERED = re.compile(r"seed=\d+ .* bad=(\d+) .* discards=[1-9].* never=none gaps=none")
# the calls that bring credits back, each with the one packet that it put up; run shows none
RETURNS = re.compile(rb"^ev=(?:consume|reply|credit) ans=0 drop=[01] rfu=00 pkt=([0-9A-F]+) ", re.M)


def arguments():
    parser = argparse.ArgumentParser()
    parser.add_argument("--program", type=Path)
    parser.add_argument("--papers", type=int, default=210)
    parser.add_argument("--lines", type=int, default=1000)
    parser.add_argument("--seed", type=int, default=1)
    return parser.parse_args()


def differences(paper, ours, theirs):
    """The lines of a paper with two answers, each with both."""
    lines = zip_longest(*(text.split(b"\n") for text in (paper, ours, theirs)))
    for number, (line, a, b) in enumerate(lines, 1):
        if a != b:
            yield f"line {number}, {(line or b'')[:200]!r}: {a!r}, the second implementation says {b!r}"


def timed(program, paper, seconds):
    """A program's output, and the time that it took, added to that of its other papers."""
    started = time.monotonic()
    told = output(program, paper)
    seconds[program] += time.monotonic() - started
    return told


def credits_in(answers):
    """The credits that came back: inside data packets, and in notices."""
    packets = [bytes.fromhex(digits.decode()) for digits in RETURNS.findall(answers)]
    carried = sum(packet[1] % 4 for packet in packets if packet[0] < 0x20)
    return Counter(carried=carried, noticed=sum(sum(packet[5::2]) for packet in packets if packet[:2] == b"\x60\x06"))


def wrong_in(paper, program, play, lines, seconds):
    """What is wrong with a paper's answers, and the answers."""
    (ours, ended), (theirs, _) = timed(program, paper, seconds), timed(play, paper, seconds)
    wrong = list(differences(paper, ours, theirs)) if ours != theirs else []
    if ended != 0:
        wrong.append(f"ended with status {ended}")
    if ours.count(b"\n") != lines:
        wrong.append(f"{ours.count(10)} answers to {lines} lines")
    return wrong, ours


def check_examples(suite, program, play):
    for answers in sorted((ROOT / "examples").glob("*.answers.txt")):
        paper = answers.with_name(answers.name.replace(".answers", "")).read_bytes()
        stored = answers.read_bytes()
        wrong = [f"{one.name} answers otherwise" for one in (program, play) if output(one, paper)[0] != stored]
        suite.check(f"examples/{answers.name}", wrong)


def main():
    given, suite = arguments(), Suite("papers")
    program, play = given.program or built("paper"), second("play")
    with tempfile.TemporaryDirectory() as directory:
        numbers = [str(n) for n in (given.papers, given.lines, given.seed)]
        made = subprocess.run([second("papers"), directory, *numbers], capture_output=True, text=True)
        print(made.stdout + made.stderr, end="")
        covered, bad, seconds, returned = COVERED.match(made.stdout), 0, Counter(), Counter()
        suite.check("the papers", [] if covered else ["a call or a refusal is not met, or no message is discarded"])
        for path in sorted(Path(directory).iterdir()):
            wrong, answers = wrong_in(path.read_bytes(), program, play, given.lines, seconds)
            suite.check(f"paper {path.name} of seed {given.seed}", wrong)
            bad += answers.split(b"\n").count(BAD)
            returned.update(credits_in(answers))
    for name, taken in seconds.items():
        print(f"{name.name}: {given.papers * given.lines / taken:,.0f} lines a second")
    check_examples(suite, program, play)
    due = int(covered[1]) if covered else None
    suite.check("bad lines", [] if bad == due else [f"{bad} answered as bad, {due} made"])
    told = "{carried} inside data packets, {noticed} in notices".format(**returned)
    most = returned["carried"] > returned["noticed"] > 0
    suite.check("credits that came back", [] if most else ["not most of them inside data packets, or none in notices"], told)
    return suite.end()


if __name__ == "__main__":
    sys.exit(main())
