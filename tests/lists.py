#!/usr/bin/env python3
"""The papers of tests/data/lists.txt, answered by the second implementation and stated about the model.

    lists.py            plays the papers with the second implementation, compares its answers with those of the file, and
                        the statements of crates/opinions/proofs/Lists.antt with what is made here
    lists.py --write    writes the answers and the statements

Each paper becomes the statement that the model gives the same answers; the proof of crate opinions computes it. A paper
that has read in it does not: the model has no such call. Together they meet every call and every refusal, every number of
credits inside a data packet, both lengths of a profile, every status of a set and of a get, what read tells, and presses of
Run to rest that make no move, that hand a message out, and that drop a packet."""
import re
import sys
import textwrap
from collections import Counter

import refusals
from programs import ROOT, Suite, output, second

LISTS = ROOT / "tests" / "data" / "lists.txt"
STATEMENTS = ROOT / "crates" / "opinions" / "proofs" / "Lists.antt"
WIDTH = 120

# of each call of the model: its single octets, and whether octets of any number follow them
CALLS = {
    "fresh": (0, True),
    "power": (0, False),
    "command": (2, True),
    "send": (1, True),
    "push": (1, False),
    "down": (0, False),
    "consume": (1, False),
    "credit": (0, False),
    "air": (0, True),
    "reply": (0, False),
    "up": (0, False),
    "report": (1, False),
}
READ = {"read": (0, True)}
RUN = {"run": (0, False)}
EVENTS = CALLS | READ | RUN
# what read is to meet: packets with reserved bits at 1, and a drop
READS = ("control", "data", "drop")
# what presses are to meet
PRESSES = {
    "makes no move": lambda press: press.moves == 0,
    "makes ten moves or more": lambda press: press.moves > 9,
    "hands a message out": lambda press: press.message is not None,
    "drops a packet": lambda press: press.drop,
}
# octets of a profile
PROFILES = (5, 11)
# CORE_SET_CONFIG_RSP and CORE_GET_CONFIG_RSP by the first octets of a packet, and the statuses of each
CONFIGS = {b"\x40\x02": ("set", (0x00, 0x05, 0x06, 0x09)), b"\x40\x03": ("get", (0x00, 0x05, 0x06, 0x09, 0x0A))}
# what crates/opinions/specs/Shown.antt lends to the statements
SHOWN = ["line", "refusal", "done", "puts", "hands", "ran", "start", "lines", "calls", "runs", "stroke_lines"]


# ---- the papers


HEX = "(?:[0-9A-F]{2})*"
HEADING = re.compile("# ([a-z-]+): (.+)")
ASKED = re.compile(f"ev=([a-z]+) arg=({HEX})")
MOVES = " moves=(0|[1-9][0-9]*)"
ANSWERED = re.compile(f"ev=([a-z]+) ans=([0-9]+) drop=([01]) rfu=([0-9A-F]{{2}}) pkt=({HEX}) msg=(-|{HEX})(?:{MOVES})?")


class Call:
    """A call or a press and its answer, from two lines of the sheet. A press alone has moves, and no packets."""

    def __init__(self, asked, answered):
        call, answer = ASKED.fullmatch(asked), ANSWERED.fullmatch(answered)
        if not call or not answer or call[1] != answer[1] or call[1] not in EVENTS:
            raise SystemExit(f"not a call and its answer:\n{asked}\n{answered}")
        self.name, argument = call[1], bytes.fromhex(call[2])
        singles, more = EVENTS[self.name]
        self.singles, self.octets = argument[:singles], argument[singles:] if more else None
        if len(self.singles) < singles or (len(argument) > singles and not more):
            raise SystemExit(f"octets missing or to spare:\n{asked}")
        self.answer, self.drop, self.rfu = int(answer[2]), answer[3] == "1", int(answer[4], 16)
        self.packets = bytes.fromhex(answer[5])
        # `-` is an empty message, nothing is none
        self.message = bytes.fromhex(answer[6].strip("-")) if answer[6] else None
        self.moves = None if answer[7] is None else int(answer[7])
        if (self.name in RUN) != (self.moves is not None) or (self.name in RUN and (self.answer or self.packets)):
            raise SystemExit(f"moves where none are told, or no press:\n{asked}\n{answered}")
        if self.rfu and self.name not in READ:
            raise SystemExit(f"reserved bits on a bench that is played from fresh on:\n{asked}\n{answered}")


class Paper:
    """A name, what the paper shows, its lines and their answers, and the answers that stand in the file."""

    def __init__(self, text, play):
        heading, *lines = text.split("\n")
        form = HEADING.fullmatch(heading)
        if not form:
            raise SystemExit(f"not the heading of a paper: {heading}")
        self.name, self.shows = form[1], form[2]
        self.asked = [line for line in lines if ASKED.fullmatch(line)]
        self.stored = [line for line in lines if not ASKED.fullmatch(line)]
        self.answered = output(play, "\n".join(self.asked).encode())[0].decode().splitlines()
        self.calls = [Call(*pair) for pair in zip(self.asked, self.answered, strict=True)]
        self.stated = all(call.name not in READ for call in self.calls)
        self.pressed = any(call.name in RUN for call in self.calls)

    def text(self):
        lines = [line for pair in zip(self.asked, self.answered) for line in pair]
        return "\n".join([f"# {self.name}: {self.shows}", *lines])


def load():
    play = second("play")
    return [Paper(text, play) for text in LISTS.read_text().strip().split("\n\n")]


def read_kind(call):
    """Which of `READS` a read met."""
    if call.drop or not call.rfu:
        return "drop" if call.drop else None
    return "data" if call.octets[0] < 0x20 else "control"


def missing(papers):
    """Calls never taken, refusals that a call never met, numbers of credits that no data packet carried up, numbers of
    octets that no profile had, taken or refused, statuses that no set or get was answered with, what read never met, and
    what no press did. Refusals 1 and 2 are about areas, which the model does not have."""
    calls = [call for paper in papers for call in paper.calls]
    met = Counter((call.name, call.answer) for call in calls)
    table = refusals.load()
    due = [(name, answer) for name in EVENTS for answer in [0, *refusals.own(table[name])]]
    carried = {call.packets[1] for call in calls if call.name in ("consume", "reply") and call.packets}
    profiles = {(len(call.octets), call.answer) for call in calls if call.name == "fresh"}
    unmet = sorted({(n, answer) for n in PROFILES for answer in (0, 3)} - profiles)
    lacking = [f"no paper has {name} with answer {answer}" for name, answer in due if not met[name, answer]]
    lacking += [f"no paper has data that carries {n} credits" for n in range(4) if n not in carried]
    lacking += [f"no paper has fresh of {n} octets with answer {answer}" for n, answer in unmet]
    statuses = {(call.packets[:2], call.packets[3]) for call in calls if call.name == "down" and call.packets}
    lacking += [
        f"no paper has a {name} with status {status:02X}"
        for response, (name, due) in CONFIGS.items() for status in due if (response, status) not in statuses
    ]
    reads = {read_kind(call) for call in calls if call.name in READ}
    lacking += [f"no paper has read meet {kind}" for kind in READS if kind not in reads]
    presses = [call for call in calls if call.name in RUN]
    return lacking + [f"no paper has a press that {what}" for what, did in PRESSES.items() if not any(map(did, presses))]


# ---- statements


def octets(value):
    return f"(hex {len(value)} 0x{value.hex().upper()})" if value else "[]"


def call_term(call):
    words = [call.name, *map(str, call.singles)]
    return " ".join(words if call.octets is None else [*words, octets(call.octets)])


def stroke_term(call):
    """Of a paper with presses: a press, or a call by its term."""
    term = call_term(call)
    return "runs" if call.name in RUN else f"calls ({term})" if " " in term else f"calls {term}"


def message_term(call):
    return "[]" if call.message is None else f"({octets(call.message)} ∷ [])"


def line_term(call):
    """In a short form where one fits."""
    if call.name in RUN:
        return f"ran {call.moves} {str(call.drop).lower()} {message_term(call)}"
    shown = [call.answer != 0, call.drop, call.packets != b"", call.message is not None]
    if shown == [True, False, False, False]:
        return f"refusal {call.answer}"
    if shown == [False, False, False, False]:
        return "done"
    if shown == [False, False, True, False]:
        return f"puts {octets(call.packets)}"
    if shown == [False, False, False, True]:
        return f"hands {octets(call.message)}"
    return f"line {call.answer} {str(call.drop).lower()} {octets(call.packets)} {message_term(call)}"


def list_lines(first, terms, last):
    """A list in lines of some width, each after the first begun by `∷`."""
    lines = [first]
    for i, term in enumerate([*terms, "[]" + last]):
        link = " ∷ " if i else ""
        if len(lines[-1] + link + term) <= WIDTH:
            lines[-1] += link + term
        else:
            lines.append(f"    ∷ {term}")
    return lines


def statement(paper):
    lines, term = ("stroke_lines", stroke_term) if paper.pressed else ("lines", call_term)
    name = paper.name.replace("-", "_")
    return "\n".join(
        [
            *textwrap.wrap(paper.shows, WIDTH, initial_indent="-- ", subsequent_indent="-- "),
            f"{name} :",
            f"    {lines}",
            *list_lines("    (", map(term, paper.calls), ")"),
            "    start",
            *list_lines("    ≡ ", map(line_term, paper.calls), ""),
            f"unfolding {lines}",
            f"{name} = refl",
        ]
    )


def use(module, names, words):
    """A `use` line of the names that occur."""
    return f"use {module}.{{{', '.join(name for name in names if name in words)}}}"


def statements(papers):
    made = [statement(paper) for paper in papers if paper.stated]
    words = set(re.split(r"[\s()]+", "\n".join(made)))
    heading = [
        "-- Papers that meet every call and every refusal, with the second implementation's answers.",
        "-- Made by tests/lists.py.",
        "-- Assumes nothing.",
        "use mathlib.Core.Path.{◌≡◌, refl}",
        use("mathlib.Core.Bool", ["true", "false"], words),
        "use mathlib.Core.List.{[], ◌∷◌}",
        "use Rattle.octets.specs.Hex.{hex}",
        use("Rattle.model.specs.Effects", CALLS, words),
        use("Rattle.opinions.specs.Shown", SHOWN, words),
    ]
    return "\n\n".join(["\n".join(heading), *made]) + "\n"


# ---- the suite


def main():
    papers = load()
    made = statements(papers)
    if sys.argv[1:] == ["--write"]:
        LISTS.write_text("\n\n".join(paper.text() for paper in papers) + "\n")
        STATEMENTS.write_text(made)
        return 0
    suite = Suite("lists")
    for paper in papers:
        wrong = [f"{a}\n    {c}, the second implementation says {b}" for a, b, c in paper_differences(paper)]
        suite.check(paper.name, wrong, f"{len(paper.calls)} calls")
    suite.check("all of them", missing(papers), f"{sum(len(paper.calls) for paper in papers)} calls")
    same = STATEMENTS.exists() and STATEMENTS.read_text() == made
    suite.check(str(STATEMENTS.relative_to(ROOT)), [] if same else ["is not what is made here; --write writes it"])
    return suite.end()


def paper_differences(paper):
    """The lines whose answer in the file is another."""
    if len(paper.stored) != len(paper.asked):
        return [("the file", f"{len(paper.asked)} answers", f"{len(paper.stored)} answers")]
    return [three for three in zip(paper.asked, paper.answered, paper.stored) if three[1] != three[2]]


if __name__ == "__main__":
    sys.exit(main())
