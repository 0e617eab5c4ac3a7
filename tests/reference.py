#!/usr/bin/env python3
"""docs/REFERENCE.md, the page for candidates, against the definitions, the card and the bench itself.

    reference.py         runs all tests; the last line is 'reference: N passed, M failed'
    reference.py --all   prints every failure of a test, not the first few alone

Numbers of messages, statuses, modes and RF states are held to the definitions; fields to the layouts, field by field; refusals
to the card and to tests/data/refusals.txt. Every row on commands, RF states and air events is played. Then every number of the
page's tables is changed once, and each change has to be noticed."""
import re
import sys

import programs
from programs import ROOT, Suite
from reference_bench import (
    ALL, BEFORE, CREATE, DISCOVERY, IDLE, INIT, RESET, STATES, answer, command, event, marking, packets, played, shown,
)
from reference_fields import header_differs, layouts, layouts_differ, messages_differ, parameters_differ, statuses_differ
from reference_page import CARD, CONFIG, CONTROLLER, LAYOUT, NAMES, PAGE, PARAMETERS, READ, REFUSALS, TYPES, differ, table
from reference_run import RUN_SENTENCES, costs_differ
from reference_states import events_differ, moves_differ, rf_octets_differ, state_shown, states_differ

# ---- commands


def commands_differ(texts):
    """Each row is played; every status of a response, and every command, has a row."""
    rows = table(texts, "before")
    for before, packet, said in rows:
        yield from differ(said.split(", "), answer(before, packet) if before in BEFORE else before, f"{before}, {packet}:")
    statuses = {said.split(", ")[0].split()[3] for _, _, said in rows}
    yield from differ(statuses, {row[0] for row in table(texts, "octet", "status")} - {"A1"}, "statuses")
    first = {" ".join(packet.split()[:2]) for _, packet, _ in rows} - {"20 3F"}
    yield from differ(first, {row[0] for row in table(texts, "octets 0 and 1") if row[1].endswith("command")}, "commands")


# ---- ranges of fields


def least_and_most(taken, most=256):
    """The range of the numbers that are taken; None where they are no range."""
    found = [n for n in range(most) if taken(n)]
    return f"{found[0]:02X} to {found[-1]:02X}" if found == list(range(found[0], found[-1] + 1)) else None


def air_taken(before, arg):
    return played(*BEFORE[before], f"ev=air arg={arg}")[-1]["ans"] == "0"


def discovers(payload):
    return answer("IDLE", f"21 03 {len(payload.split()):02X} {payload}") == ["41 03 01 00"]


def ranges():
    """Values that the page has for a field, as they are taken by the bench."""
    yield "Discover notification", "ID", least_and_most(lambda n: air_taken("DISCOVERY", f"01{n:02X}040002"))
    yield "Activated notification", "ID", least_and_most(lambda n: air_taken("DISCOVERY", f"02{n:02X}0400"))
    yield "Discover notification", "n", least_and_most(lambda n: air_taken("DISCOVERY", "0101040002" + n * "00"), 64)
    yield "Activated notification", "n", least_and_most(lambda n: air_taken("DISCOVERY", "02010400" + n * "00"), 64)
    types = least_and_most(lambda n: air_taken("W4_ALL_DISCOVERIES", f"01020400{n:02X}"))
    yield "Discover notification", "type: 0 last, 1 last at a limit, 2 more follow", types
    yield "Discover command", "how many modes", least_and_most(lambda n: discovers(f"{n:02X}" + n * " 00 01"), 64)
    polls, listens = [least_and_most(lambda n: discovers(f"01 {mode} {n:02X}")) for mode in ("00", "80")]
    each = f"{polls}; 01 for modes that listen" if listens == "01 to 01" else None
    yield "Discover command", "frequency of the first", each
    created = [packets(played(*IDLE, *(n * CREATE), *CREATE[:2])[-1]["pkt"])[0].split()[-1] for n in range(4)]
    yield "Create response", "Conn ID", f"{created[0]} to {created[-1]}"
    yield from ranges_of_commands()


def ranges_of_commands():
    resets = [f"{n:02X}" for n in range(256) if answer("cold", f"20 00 01 {n:02X}")[0] == "40 00 01 00"]
    yield "Reset command", "type", "{} keeps the configuration, {} resets it".format(*resets) if len(resets) == 2 else None
    loops = [f"{n:02X}" for n in range(256) if answer("IDLE", f"20 04 02 {n:02X} 00")[0] != "40 04 01 01"]
    yield "Create command", "destination", f"{' '.join(loops)}, loopback"
    counts = [f"{n:02X}" for n in range(256) if answer("IDLE", f"20 04 02 01 {n:02X}")[0] != "40 04 01 01"]
    yield "Create command", "number of parameters", " ".join(counts)
    frames = [f"{n:02X}" for n in range(256) if answer("W4_HOST_SELECT", f"21 04 03 01 04 {n:02X}")[0] == "41 04 01 00"]
    yield "Select command", "interface", f"{' '.join(frames)}, Frame"
    # a message that the endpoint takes, for which one credit is owed
    told = ["ev=send arg=00AA", "ev=push arg=00", "ev=down arg=", "ev=consume arg=00", "ev=credit arg="]
    notice = packets(played(*BEFORE["POLL_ACTIVE"], *told)[-1]["pkt"])[0].split()[3:]
    yield "Credits notification", "how many entries", notice[0]
    yield "Credits notification", "Conn ID of the first", notice[1]


RANGES = []


def ranges_differ(texts):
    if not RANGES:
        RANGES.extend(ranges())
    said = {(name, field): value for name, _, rows in layouts(texts) for _, field, value in rows}
    for name, field, due in RANGES:
        yield from differ(said.get((name, field)), due, f"{name}, {field}:")


# ---- sentences


def aired(lines, *args):
    """The answers to events, one behind the other and none read."""
    return [line["ans"] for line in played(*lines, *(f"ev=air arg={arg}" for arg in args))[len(lines) :]]


def found_many(count):
    """The controller after so many endpoints were found, and all of them read."""
    return DISCOVERY + [line for n in range(1, count + 1) for line in event(f"01{n:02X}040002")]


def reported(profile):
    """A loopback's five numbers on a bench with this profile."""
    return played(f"ev=fresh arg={profile}", *IDLE, *CREATE, "ev=report arg=02")[-1]["msg"]


def pushed(before, *lines):
    """The packets that the last of some lines puts on wires."""
    return played(*before, *lines)[-1]["pkt"]


# an open loopback, and a message of one packet that went there and was consumed
OPEN, LOOPED = BEFORE["one loopback"], ["ev=send arg=02AA", "ev=push arg=02", "ev=down arg=", "ev=consume arg=02"]
# 08 is set to 00 and to 01, then to a value that it may not have; 09 is set to 0A
SET = IDLE + command("00020408010008010108010209010A")
KEPT = {0x08: "01", 0x09: "0A"}
# what the page says outside its tables, and what of it is played
SENTENCES = RUN_SENTENCES | {
    "Without flow control the first is FF and the last two are 00.": lambda: reported("2004FF0401") == "FF00000000",
    "the first segment of a long command of group 0 has 30": lambda: pushed([], "ev=command arg=003F" + 33 * "00")[:4] == "303F",
    "it is answered with its own group and opcode and status 05": lambda: answer("cold", "2F 3E 00") == ["4F 3E 01 05"],
    "If it is neither 00 nor 09 it is the only one.": lambda: answer("four loopbacks", "20 04 02 01 00") == ["40 04 01 01"],
    "Any other ID is not known to it": lambda: [n for n in range(256) if shown(IDLE, n) == "09"]
    == [n for n in range(256) if n not in bytes.fromhex("08091011131418191A2021282A2F68")],
    "what is invalid is listed, as often as it is given, and all others are set": lambda: shown(SET, 8, 9) == KEPT
    and answer("IDLE", "20 02 0A 03 08 01 02 09 01 0A 08 01 02") == ["40 02 04 09 02 08 08"],
    "of a parameter that is given twice the last valid value stays": lambda: shown(SET, 8)[8] == "01",
    "A length of 00 restores the default": lambda: shown(SET + command("0002010900"), 8, 9) == {8: "01", 9: "08"},
    "If the list is cut short, or the status is 06, nothing is set": lambda: [
        shown(SET + lines, 8, 9) for lines in (command("00020208010009"), command("0103010001") + command("000201080100"))
    ] == [KEPT, KEPT],
    "A reset command of type 01 that is OK restores all defaults, as power and fresh do; type 00 keeps all values": lambda: [
        shown(SET + lines + INIT, 8, 9) for lines in (RESET, ["ev=power arg="] + RESET, command("000000", 2), command("000002"))
    ] == [{8: "00", 9: "08"}] * 2 + [KEPT] * 2 and shown(SET + ["ev=fresh arg=2004020401"] + IDLE, 8, 9) == {8: "00", 9: "08"},
    "judged in this order: unknown, too short, wrong state, values": lambda: [
        answer("cold", packet)[0][-2:] for packet in ("20 3F 00", "21 03 01 09", "21 03 03 01 05 01")
    ] + answer("IDLE", "21 03 03 01 05 01") == ["05", "05", "06", "41 03 01 01"],
    "Octets to spare at the end of a command are ignored": lambda: answer("cold", "20 00 02 01 FF")[0] == "40 00 01 00",
    "An empty message is one packet with no payload": lambda: pushed(OPEN, "ev=send arg=02", "ev=push arg=02") == "020000",
    "An event that is not taken is refused with 11": lambda: aired(IDLE, "08") == ["11"],
    "repeats an ID with its protocol": lambda: aired(ALL, "0101040002", "0101050002") == ["11", "0"],
    "or is the eighth and has type 2": lambda: aired(found_many(7), "0108040002", "0108040000") == ["11", "0"],
    "a 2 in W4_HOST_SELECT for another ID or protocol than the selected": lambda: aired(
        BEFORE["W4_HOST_SELECT with a selection"], "02020400", "02010500", "02010400"
    ) == ["11", "11", "0"],
    "Events 2 and 3 are refused with 14 while a packet is on either wire": lambda: [
        aired([*DISCOVERY, *first], arg) for first in (CREATE[:1], CREATE[:2]) for arg in ("02010400", "03010480")
    ] == [["14"]] * 4,
    "From every state a reset command that is OK leads to IDLE; before init no discovery can be started there": lambda: all(
        state_shown(BEFORE[state] + RESET + INIT) == state_shown(IDLE) and answer("reset", "21 03 03 01 00 01") == ["41 03 01 06"]
        for state in STATES
    ),
    "Protocols are passed on as they are": lambda: all(air_taken("DISCOVERY", f"0101{n:02X}0002") for n in range(256)),
    "Connection 0 alone owes credits": lambda: played(*OPEN, *LOOPED, "ev=credit arg=")[-1]["ans"] == "8",
}


# what the page says of the standard's tables, and the definitions whose comments name them
TABLES = {
    "message types": (TYPES, "Message types"),
    "reset": (LAYOUT, "CORE_RESET"),
    "init": (LAYOUT, "CORE_INIT"),
    "set configuration": (CONFIG, "CORE_SET_CONFIG_CMD"),
    "get configuration": (CONFIG, "CORE_GET_CONFIG_CMD"),
    "configuration parameters": (PARAMETERS, "The configuration parameters"),
    "parameter identifiers": (PARAMETERS, "The configuration parameters"),
    "create": (LAYOUT, "CORE_CONN_CREATE"),
    "close": (CONTROLLER, "CORE_CONN_CLOSE"),
    "credits": (LAYOUT, "CORE_CONN_CREDITS_NTF"),
    "generic error": (LAYOUT, "CORE_GENERIC_ERROR_NTF"),
    "discover": (LAYOUT, "RF_DISCOVER_NTF"),
    "select": (CONTROLLER, "RF_DISCOVER_SELECT"),
    "activated": (LAYOUT, "RF_INTF_ACTIVATED_NTF"),
    "deactivate": (LAYOUT, "RF_DEACTIVATE_NTF"),
    "statuses": (NAMES, "statuses"),
    "modes": (NAMES, "RF technology and mode"),
    "groups and opcodes": (NAMES, "GIDs and OIDs"),
}


def tables_differ(texts):
    sentence = re.search(r"The standard's tables: (.*)\.$", texts[PAGE], re.M)[1]
    said = {words: number for number, words in re.findall(r"(\d+(?: to \d+)?) ([a-z ]+)", sentence)}
    for words, (path, name) in TABLES.items():
        due = re.search(rf"^-- (?:---- )?{name} \(003, Tables? ([\d to]+)(?:; IDs by Table (\d+))?\)", texts[path], re.M)
        yield from differ(said.get(words), due and due[2 if words == "parameter identifiers" else 1], words)
    # of protocols the bench has no definition
    yield from differ({*said}, {*TABLES, "protocols"}, "tables")


def sentences_differ(texts):
    yield from tables_differ(texts)
    for sentence, holds in SENTENCES.items():
        if sentence not in texts[PAGE] or not holds():
            yield f"not said, or not so: {sentence}"


# ---- refusals


def refusing(texts):
    """The calls of the sheet that give each number, as the page is to name them."""
    found, calls = {}, []
    for call, numbers in re.findall(r"^(\w+) +(\d.*)$", texts[REFUSALS], re.M):
        if call in marking.CALLS:
            calls.append(call)
            for number, kinds in dict(re.findall(r"(\d+)(?::([\d-]+))?", numbers)).items():
                found.setdefault(number, []).append(f"{call} {kinds.replace('-', ' to ')}".strip())
    for number, givers in found.items():
        others = [call for call in calls if call not in givers]
        yield number, "all but " + " and ".join(others) if len(others) < 3 else ", ".join(givers)


def refusals_differ(texts):
    words = re.findall(r"^- (\d+): (.*)\.$", texts[CARD], re.M)
    givers = dict(refusing(texts))
    yield from differ(table(texts, "number", "why"), [[number, text, givers.get(number)] for number, text in words])


# ---- all of it

CHECKS = {
    "the header of a packet": header_differs,
    "messages": messages_differ,
    "statuses": statuses_differ,
    "fields": layouts_differ,
    "configuration parameters": parameters_differ,
    "ranges of fields": ranges_differ,
    "octets of the RF messages": rf_octets_differ,
    "commands and what answers them": commands_differ,
    "RF states": states_differ,
    "what moves the state": moves_differ,
    "air events": events_differ,
    "how many moves run makes": costs_differ,
    "sentences": sentences_differ,
    "refusals": refusals_differ,
}


def wrong(check, texts):
    """What a check finds; a page that it cannot read is a find too."""
    try:
        return list(check(texts))
    except (LookupError, TypeError, ValueError, AttributeError) as fault:
        return [f"cannot be read: {fault!r}"]


# columns in words, and commands: another one may have the same answer, and is played
TOLD = ("when", "what it is", "command")


def number_places(page):
    """Where a number stands in a table, in columns that are held to something."""
    head, at = [], 0
    for line in page.split("\n"):
        cells = line.split("|")
        if not line.startswith("|"):
            head = []
        elif not head:
            head = [cell.strip() for cell in cells]
        elif not line.startswith("|--"):
            start = at
            for name, cell in zip(head, cells):
                for found in re.finditer(r"\b(?:[0-9A-F]{2}|\d+)\b", cell) if name not in TOLD else []:
                    yield start + found.start(), start + found.end()
                start += len(cell) + 1
        at += len(line) + 1


def other(number):
    """Another number of the same form."""
    return f"{(int(number, 16) + 1) % 256:02X}" if len(number) == 2 else str(int(number) + 1)


def unnoticed(texts):
    """Numbers of the page's tables of which another makes no difference."""
    page = texts[PAGE]
    for start, end in number_places(page):
        changed = texts | {PAGE: page[:start] + other(page[start:end]) + page[end:]}
        if not any(wrong(check, changed) for check in CHECKS.values()):
            line = page.count("\n", 0, start) + 1
            yield f"line {line}: {page[start:end]} in {page.splitlines()[line - 1]}"


def main():
    if "--all" in sys.argv:
        programs.TOLD = None
    texts = {name: (ROOT / name).read_text() for name in READ}
    suite = Suite("reference")
    for name, check in CHECKS.items():
        suite.check(name, wrong(check, texts))
    if not suite.failed:
        suite.check("another number", list(unnoticed(texts)), f"{len(list(number_places(texts[PAGE])))} changed")
    return suite.end()


if __name__ == "__main__":
    sys.exit(main())
