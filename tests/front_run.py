"""What the keys are to say of a press of run, made of its moves, each pressed by itself; and that they say it."""
import re

from ear import press_sessions, random_sessions
from programs import ROOT
from worked import FIELDS, KEYS, Worked, fed, unlike

# in the order of run
MOVES = ["up", "down", *(f"consume {conn}" for conn in "02345"), "credit", *(f"push {conn}" for conn in "02345"), "reply"]
# what presses have to be met: where a message came out, if one did, whether something was dropped, whether no move is left
KINDS = {
    *((("host", conn), False, False) for conn in "2345"), (("host", "2"), False, True), (("host", "0"), False, True),
    *((("controller", conn), False, False) for conn in "02345"), (("controller", "0"), False, True),
    (("controller", "2"), True, False), (None, False, True), (None, True, True),
}


def counted(number, noun):
    return f"{number} {noun}{'' if number == 1 else 's'}"


class Press:
    """What a press comes to, by the full lines of its moves."""

    def __init__(self):
        self.moves, self.dropped, self.message, self.where = 0, False, "", None

    def add(self, key, line):
        """One more move, if it was taken."""
        _, answer, dropped, _, _, message, _, says = FIELDS.fullmatch(line).groups()
        if answer != "0":
            return False
        self.moves, self.dropped, self.message = self.moves + 1, self.dropped or dropped == "1", message
        if message:
            said = re.search("on connection ([0-5])", says)
            self.where = ("host", said[1]) if key == "up" else ("controller", key[-1])
        return True

    def full(self, rests):
        """The line of run; rests is whether no move is left."""
        fields = f"ev=run ans=0 drop={self.dropped:d} rfu=00 pkt= msg={self.message} moves={self.moves}"
        says = [counted(self.moves or "no", "move"), *["some dropped"] * self.dropped]
        if self.where:
            size = len(self.message.strip("-")) // 2
            message = f"message of {counted(size, 'octet')}" if size else "empty message"
            says.append("{} handed out at the {} on connection {}".format(message, *self.where))
        return f'{fields} says="{"; ".join([*says, "at rest" if rests else "moves are left"])}"'

    def brief(self, rests):
        """The same in brief."""
        says = [f"ran {counted(self.moves, 'move')}" if self.moves else "no moves", *["some dropped"] * self.dropped]
        if self.where:
            size, (end, conn) = len(self.message.strip("-")) // 2, self.where
            says.append(f"{f'message of {size}' if size else 'empty message'} on {conn} at {end}")
        return ", ".join([*says, "at rest" if rests else "more to run"])


def one_by_one(worked):
    """A press as its moves, each the first key that is taken."""
    press = Press()
    while press.where is None and any(press.add(key, worked.press(key)) for key in MOVES):
        pass
    return press


def rests_after(keys):
    """Whether another press, behind these keys, makes no move."""
    return " moves=0 " in fed([KEYS], "\n".join([*keys, "run"]).encode())[0].splitlines()[-1]


def check_presses(suite):
    """The same keys are pressed twice, once with the moves in place of each press; behind it the two go on alike."""
    met = set()
    for number, keys in enumerate([*press_sessions(), *random_sessions()], 1):
        wrong = []
        with Worked(suite, False) as pressed, Worked(suite, False) as single:
            for n, key in enumerate(keys):
                if key == "run":
                    press, rests = one_by_one(single), rests_after(keys[:n + 1])
                    heard = [pressed.press(words) for words in ("run", "brief", "again", "full")][::2]
                    wrong += unlike(heard, [press.full(rests), press.brief(rests)])
                    met.add((press.where, press.dropped, rests))
                else:
                    wrong += [words for words in (key, "state") if pressed.press(words) != single.press(words)]
        suite.check(f"presses of session {number}, as their moves", wrong)
    suite.check("presses of each kind", [str(kind) for kind in KINDS - met])


def check_foretold(suite):
    """docs/BY-EAR.md foretells the moves of a session, which is heard as it says."""
    section = (ROOT / "docs" / "BY-EAR.md").read_text().split("## Foretell the moves")[1].split("## ")[0]
    before, typed = [re.split(", ", keys) for keys in re.search("^Type (.*)\\. Then type (.*):$", section, re.M).groups()]
    heard = fed([KEYS, "--brief"], "\n".join([*before, *typed]).encode())[0].splitlines()[len(before):]
    suite.check("docs/BY-EAR.md, the session with moves foretold", unlike(heard, re.findall("^    (.*)$", section, re.M)))
    made = [int(number) for line in heard for number in re.findall("^ran ([0-9]+) move", line)]
    suite.equal("docs/BY-EAR.md, the moves foretold", [str(sum(made))], re.findall("together ([0-9]+),", section))
    suite.equal("docs/BY-EAR.md, until one makes none", heard[-1:], ["no moves, at rest"])
