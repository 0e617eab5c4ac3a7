"""Run to rest in docs/REFERENCE.md: what a press tells, and how many moves presses make, played."""
import re

from reference_bench import BEFORE, CREATE, IDLE, RESET, command, event, played
from reference_page import EXACT, differ, table

RUN = "ev=run arg="
MOVES = [f"ev={name} arg={conn}" for name, conns in [("up", [""]), ("down", [""]), ("consume", ["00", "02", "03", "04", "05"]),
         ("credit", [""]), ("push", ["00", "02", "03", "04", "05"]), ("reply", [""])] for conn in conns]


# ---- a press


def made(lines):
    """The moves of a press, one by one: each with its answer. Those that are refused change nothing, so all are asked at once."""
    found = []
    while not (found and found[-1][1]["msg"]):
        asked = played(*lines, *(move for move, _ in found), *MOVES)[-len(MOVES) :]
        at = next((at for at, line in enumerate(asked) if line["ans"] == "0"), None)
        if at is None:
            break
        found.append((MOVES[at], asked[at]))
    return found


def moved(lines):
    """A line of run, as its moves tell."""
    moves = made(lines)
    drop = max([answer["drop"] for _, answer in moves], default="0")
    message = moves[-1][1]["msg"] if moves else ""
    return {"ev": "run", "ans": "0", "drop": drop, "rfu": "00", "pkt": "", "msg": message, "moves": str(len(moves))}


def run_as_moved(lines, presses):
    """Whether each of some presses, one behind the other, is answered as its moves are."""
    before = [[*lines, *[RUN] * n] for n in range(presses)]
    return all(list(played(*one, RUN)[-1].items()) == list(moved(one).items()) for one in before)


# ---- presses until one makes no move


def presses(lines):
    """The moves of each press until one makes none."""
    told = []
    while not told or told[-1]:
        told.append(int(played(*lines, *[RUN] * (len(told) + 1))[-1]["moves"]))
    return told[:-1]


def is_clear(lines):
    """Whether nothing is under way, by the answers that the page names."""
    asked = [line["ans"] for line in played(*lines, *MOVES[:8])[-8:]]
    return {asked[0], asked[1], asked[7]} == {"8"} and {*asked[2:7]} <= {"6", "8"}


def ready(profile):
    """One loopback and an endpoint, by their keys, and nothing under way."""
    return [f"ev=fresh arg={profile}", *IDLE, *CREATE, *command("0103010001"), *event("02010400")]


FLOW, FREE = ready("2004020401"), ready("2004FF04FF")
# the rows of the page: what is in hand, one segment each
COSTS = {
    "in hand at the host, on 2 to 5": (FLOW, "ev=send arg=02AA"),
    "in hand at the host, on 0 with flow control": (FLOW, "ev=send arg=00AA"),
    "in hand at the host, on 0 without flow control": (FREE, "ev=send arg=00AA"),
    "of the endpoint's message": (FLOW, "ev=air arg=08AA"),
}


def names(lines):
    """The moves of all presses, by the names of their calls."""
    moves = [move for n in range(len(presses(lines))) for move, _ in made([*lines, *[RUN] * n])]
    return ", ".join(move[3:].split()[0] for move in moves)


def defined(texts):
    """The numbers of the definition, in the order of the page's rows."""
    text = texts[EXACT]
    loop, reply = re.search(r"^exactly es = (\d+) \* total .* \+ (\d+) \* speech_left es$", text, re.M).groups()
    return [loop, *re.search(r"^static_cost es = pick \(flows .*\) (\d+) (\d+)$", text, re.M).groups(), reply]


def costs_differ(texts):
    rows = table(texts, "for each segment", "moves", "which")
    yield from differ([row[0] for row in rows], [*COSTS], "segments")
    yield from differ([row[1] for row in rows], defined(texts), "moves")
    for what, number, which in rows:
        bench, line = COSTS[what]
        yield from differ([number, which], [str(sum(presses([*bench, line]))), names([*bench, line])], what)


# ---- sentences

# four loopbacks and an endpoint, each with a message in hand
BUSY = [*IDLE, *(4 * CREATE), *command("01030200018001"), *event("03010480"), "ev=air arg=08E1E2"]
BUSY += [f"ev=send arg=0{conn}{6 * 'AA'}" for conn in "54320"]
FIELD_OFF = [*BUSY, "ev=push arg=00", "ev=air arg=06"]
OPEN = BEFORE["one loopback"]
NINE = "010203040506070809"
# what is in hand in the page's example
THREE = [*FLOW, f"ev=send arg=02{NINE}", f"ev=send arg=00{NINE}", "ev=air arg=08AA"]
# a packet on the down wire, stored, its credit owed, and on the up wire
UNDER_WAY = [["ev=send arg=00AA", "ev=push arg=00", "ev=down arg=", "ev=consume arg=00", "ev=credit arg="][: 2 + n] for n in range(4)]


def moves_for(octets, line):
    """The moves that a message of so many octets takes, on a bench with payload 4."""
    bench = [*FLOW, line + octets * "AA"]
    return sum(presses(bench)) if is_clear(bench) else None


RUN_SENTENCES = {
    "A line of run ends in `moves`, how many moves it made, in decimal; its `pkt` is empty, whatever they put": lambda: (
        run_as_moved([RESET[0]], 2) and run_as_moved([*OPEN, "ev=send arg=02" + 20 * "AA"], 3)
    ),
    "Run makes moves until none is left, or until one hands a message out. Each is the first that is taken of up; down; consume of "
    "0, 2, 3, 4, 5; credit; push of 0, 2, 3, 4, 5; reply.": lambda: run_as_moved(BUSY, 8),
    "`drop` is 1 if that of a move was": lambda: run_as_moved(FIELD_OFF, 1) and moved(FIELD_OFF)["drop"] == "1",
    "Nothing is under way where down, up and credit are refused with 8 and consume of each connection with 6 or 8; so it is whenever "
    "run has made no move": lambda: is_clear(FLOW) and is_clear(THREE) and is_clear([*BUSY, *[RUN] * len(presses(BUSY)), RUN])
    and not any(is_clear([*FLOW, *lines]) for lines in UNDER_WAY),
    "one segment for each payload that it fills or begins, an empty message one": lambda: [
        moves_for(octets, "ev=send arg=02") for octets in (0, 1, 4, 5, 8, 9)
    ] == [4, 4, 4, 8, 8, 12],
    "The endpoint's message is cut at 255 octets, whatever the payload": lambda: [
        moves_for(octets, "ev=air arg=08") for octets in (0, 255, 256, 1024)
    ] == [2, 2, 4, 10],
    "the segments of each are 3, 3 and 1, so the moves are 12, 15 and 2, together 29": lambda: [
        sum(presses([*FLOW, line])) for line in THREE[-3:]
    ] == [12, 15, 2] and sum(presses(THREE)) == 29,
    "Run makes them in four presses, of 13, 13, 1 and 2 moves": lambda: presses(THREE) == [13, 13, 1, 2],
}
