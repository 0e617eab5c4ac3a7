#!/usr/bin/env python3
"""The packets of tests/data/nci-vectors.txt against the packet layer.

    vectors.py            runs the program `vectors` on each packet, on the damaged packets derived from it and on lines of
                          every form, and compares the fields of each packet with what its explanation says of it
    vectors.py --write    writes crates/vectors/stdin and stdout, some of these lines

The reading and writing here come from the standard (003, 3.4), from document 01, "Packets", and from document 02, "Credits
inside data packets", and share nothing with the program."""
import re
import sys
from itertools import product

from programs import ROOT, Suite, built, check_stored, run_group, spaced, stored, write_stored

VECTORS = ROOT / "tests" / "data" / "nci-vectors.txt"
LONGEST_LINE = 600
# of each group, so many lines are stored
STORED = 34


# ---- the vectors


class Vector:
    def __init__(self, heading, line):
        self.number, self.direction, octets, self.meaning = line.split(" | ")
        self.heading = heading
        self.octets = bytes.fromhex(octets)


def load():
    vectors, heading = [], ""
    for line in VECTORS.read_text().splitlines():
        if re.match(r"# [A-Z]\. ", line):
            heading = line[5:]
        elif line and not line.startswith("#"):
            vectors.append(Vector(heading, line))
    return vectors


# ---- packets, by the standard's bit fields


def read(octets):
    """The fields of a packet as a dictionary, or None for a drop."""
    if len(octets) < 3:
        return None
    bits = f"{octets[0]:08b}"
    packet = {"mt": int(bits[:3], 2), "pbf": int(bits[3]), "id": int(bits[4:], 2), "len": octets[2]}
    packet["payload"] = octets[3 : 3 + octets[2]]
    if packet["mt"] > 3 or len(packet["payload"]) != octets[2]:
        return None
    # of a control packet the OID, of data the credits (CR); the rest is spare
    oid, credits = (0b00111111, 0) if packet["mt"] else (0, 0b00000011)
    packet["oid"], packet["credits"], packet["spare"] = octets[1] & oid, octets[1] & credits, octets[1] & ~(oid | credits)
    return packet


def write(packet):
    """The octets of a packet: spare bits are written 0."""
    first = f"{packet['mt']:03b}{packet['pbf']:b}{packet['id']:04b}"
    second = packet["oid"] if packet["mt"] else packet["credits"]
    return bytes([int(first, 2), second, len(packet["payload"])]) + packet["payload"]


# ---- lines


def line_in(name, octets):
    return f"no={name} pkt={octets.hex().upper()}"


def damaged(name, octets):
    """A packet with an octet too few, with an octet too many, and with each RFU message type."""
    yield name + "-short", octets[:-1]
    yield name + "-long", octets + b"\xa5"
    for mt in range(4, 8):
        yield f"{name}-rfu{mt}", bytes([mt << 5 | octets[0] & 0b11111]) + octets[1:]


def packets(vectors):
    """The vectors' packets, those at the limits of a header, and second octets of data and of control packets: each number
    of credits, without and with spare bits."""
    payload = bytes(range(255))
    yield from ((v.number, v.octets) for v in vectors)
    yield from (("spare-data", b"\x02\xff\x00"), ("spare-control", b"\x2f\xff\x00"), ("none", b""), ("one", b"\x02"))
    yield from (("full-data", b"\x1f\x03\xff" + payload), ("full-control", b"\x7f\x3f\xff" + payload))
    for first, spare, credits in product((0x02, 0x10, 0x22, 0x60), (0x00, 0x04, 0x40, 0xA8, 0xFC), range(4)):
        yield f"second-{first:02X}-{spare | credits:02X}", bytes([first, spare | credits, 1, 0xAA])


def lines_of_form():
    """Lines about the form of a line, most of them bad. The characters beside the digits are tried."""
    good = "no=x pkt=020000"
    yield from ["", "x", "no=x", "no=x pkt", good, " " + good, good + " ", good + "0", "no= pkt=020000"]
    yield from ["no=x  pkt=020000", "No=x pkt=020000", "no=x Pkt=020000", "no=x arg=020000", "pkt=020000 no=x"]
    yield from (f"no=x pkt=02{pair}00" for c in "/09:@AFGaf" for pair in ("0" + c, c + "0"))
    yield from (f"no={'x' * (LONGEST_LINE + more - len('no= pkt=020000'))} pkt=020000" for more in (0, 1, 5000))


def line_out(line):
    form = re.fullmatch(r"no=([^ ]+) pkt=((?:[0-9A-F][0-9A-F])*)", line)
    if not form or len(line) > LONGEST_LINE:
        return "bad"
    octets = bytes.fromhex(form[2])
    packet = read(octets)
    if packet is None:
        return f"no={form[1]} read=drop"
    again = write(packet)
    same = int(again == octets[: 3 + packet["len"]])
    header = "mt={mt} pbf={pbf} id={id} oid={oid:02X} credits={credits:02X} spare={spare:02X} len={len}".format(**packet)
    payload = packet["payload"].hex().upper()
    return f"no={form[1]} read=packet {header} payload={payload} again={again.hex().upper()} same={same}"


# ---- what the explanations say


# Table 139
NAMES = {
    "CORE_RESET": (0, 0),
    "CORE_INIT": (0, 1),
    "CORE_SET_CONFIG": (0, 2),
    "CORE_GET_CONFIG": (0, 3),
    "CORE_CONN_CREATE": (0, 4),
    "CORE_CONN_CLOSE": (0, 5),
    "CORE_CONN_CREDITS": (0, 6),
    "CORE_GENERIC_ERROR": (0, 7),
    "RF_DISCOVER": (1, 3),
    "RF_DISCOVER_SELECT": (1, 4),
    "RF_INTF_ACTIVATED": (1, 5),
    "RF_DEACTIVATE": (1, 6),
}
# a command named without its ending: D is the command, U its response
SHORT = {
    "INIT": "CORE_INIT",
    "CONN_CREATE": "CORE_CONN_CREATE",
    "refused create": "CORE_CONN_CREATE",
    "RF_DISCOVER": "RF_DISCOVER",
    "selection": "RF_DISCOVER_SELECT",
    "DEACTIVATE": "RF_DEACTIVATE",
    "SET": "CORE_SET_CONFIG",
    "GET": "CORE_GET_CONFIG",
}
TYPES = {"data": 0, "CMD": 1, "command": 1, "RSP": 2, "response": 2, "NTF": 3, "notification": 3}
# the messages that a heading is about
HEADINGS = {
    "CORE_RESET / CORE_INIT": {"id": [0]},
    "Logical connections": {"id": [0], "oid": [4, 5, 6]},
    "Deactivation": {"id": [1], "oid": [6]},
    "Data of the Frame interface": {"mt": [0], "id": [0], "oid": [0]},
    "Configuration": {"id": [0], "oid": [2, 3]},
}
# Table 129, and the words that stand for a status
STATUS = {
    "STATUS_OK": 0x00,
    "ok": 0x00,
    "^(?:selection )?accepted": 0x00,
    "^closed": 0x00,
    "STATUS_REJECTED": 0x01,
    "rejected": 0x01,
    "RF_FRAME_CORRUPTED": 0x02,
    "STATUS_FAILED": 0x03,
    "STATUS_SYNTAX_ERROR": 0x05,
    "STATUS_SEMANTIC_ERROR": 0x06,
    "semantic error": 0x06,
    "STATUS_INVALID_PARAM": 0x09,
    "STATUS_MESSAGE_SIZE_EXCEEDED": 0x0A,
    "STATUS_OK_4_BIT": 0x14,
    "DISCOVERY_ALREADY_STARTED": 0xA0,
    "DISCOVERY_TARGET_ACTIVATION_FAILED": 0xA1,
}


def facts(v, before):
    """What the explanation of a packet says, as pairs of a field and the values that it may have. `before` has the
    fields of the packet above it."""
    m = v.meaning
    if re.search(r"RFU MT|silently discarded", m):
        yield "read", ["drop"]
        return
    yield "read", ["packet"]
    yield from kinds(v)
    yield from HEADINGS.get(v.heading, {}).items()
    if re.match(r"(its )?answer(?! to)", m):
        yield "id", [before.get("id")]
        yield "oid", [before.get("oid")]
    for octets in re.findall(r"answer (?:to )?((?:[0-9A-F]{2} )*[0-9A-F]{2})", m):
        first, second = bytes.fromhex(octets)[:2]
        yield "id", [first & 15]
        yield "oid", [second]
        yield "mt", [{1: 2, 2: 1}[first >> 5]]
    yield from headers(v)
    yield from payloads(v, before)


def kinds(v):
    """Message type, GID and OID from the direction and the message's name."""
    m = v.meaning
    ways = {"D": [0, 1], "U": [0, 2, 3]}
    back = {"D": "U", "U": "D"}
    yield "mt", ways[back[v.direction] if "arriving at" in m else v.direction]
    for name, kind in re.findall(r"\b([A-Z_]+)_(CMD|RSP|NTF)\b", m):
        yield "mt", [TYPES[kind]]
        yield "id", [NAMES[name][0]]
        yield "oid", [NAMES[name][1]]
    for word, name in SHORT.items():
        if re.match(rf"{word}\b(?!_)", m):
            yield "mt", [{"D": 1, "U": 2}[v.direction]]
            yield "id", [NAMES[name][0]]
            yield "oid", [NAMES[name][1]]
    for kind in re.findall(r"^(?:a |empty |loopback |)(data|command|response|notification|NTF)\b", m):
        yield "mt", [TYPES[kind]]
        if kind == "data":
            yield "oid", [0]
    if re.match(r"(its )?answer", m):
        yield "mt", [2]


def headers(v):
    """The other fields of the header. A packet that is not said to be a segment holds a whole message, with PBF 0. None has
    a spare bit set, and each is written again as it was."""
    m = v.meaning
    for flag in re.findall(r"\bPBF ([01])", m):
        yield "pbf", [int(flag)]
    yield "pbf", [int(bool(re.search(r"not the last|first segment", m)))]
    credits = re.search(r"CR = (\d)", m)
    yield "credits", [int(credits[1]) if credits else 0]
    yield "spare", [0]
    yield "same", [1]
    if v.heading == "Packet layer":
        for conn in re.findall(r"Conn ID (\d+)", m):
            yield "id", [int(conn)]
    if "static RF connection" in m:
        yield "id", [0]
    for oid, gid in re.findall(r"OID ([01]+)b in GID (\d+)", m):
        yield "oid", [int(oid, 2)]
        yield "id", [int(gid)]
    for gid in re.findall(r"GID ([01]+)b", m):
        yield "id", [int(gid, 2)]
    for oid in re.findall(r"command with OID (\d+)", m):
        yield "oid", [int(oid)]


def payloads(v, before):
    """The payload's length, and a status where it has one: at its front, in data at its end."""
    m = v.meaning
    if re.search(r"^empty|header only|without type", m):
        yield "len", [0]
        yield "payload", [""]
    if re.search(r"nothing else|alone|only a Status|^closed", m):
        yield "len", [1]
    for count in re.findall(r"Conn ID \d+, (\d+) octets|first segment \((\d+)\)", m):
        yield "len", [int(count[0] or count[1])]
    for count in re.findall(r"^(\d+) octets from the endpoint and trailing Status", m):
        yield "len", [int(count) + 1]
    if re.match(r"last segment of it", m):
        whole = re.search(r"of a (\d+)-octet command", before["meaning"])
        yield "len", [int(whole[1]) - before.get("len", 0)]
    end = "last" if v.heading == "Data of the Frame interface" else "first"
    for word, status in STATUS.items():
        if re.search(rf"{word}\b" if word.startswith("^") else rf"\b{word}\b", m):
            yield end, [status]
    for status in re.findall(r"Status ([0-9A-F]{2})", m):
        yield "last", [int(status, 16)]
    for octet in re.findall(r"Conn ID octet ([0-9A-F]{2})", m):
        yield "payload", [p for p in [v.octets[3:].hex().upper()] if octet in p]


# a line that the program wrote
WRITTEN = re.compile(
    r"no=(?P<no>[^ ]+) read=(?P<read>drop|packet(?= ))(?: mt=(?P<mt>\d+) pbf=(?P<pbf>\d+) id=(?P<id>\d+)"
    r" oid=(?P<oid>[0-9A-F]+) credits=(?P<credits>[0-9A-F]+) spare=(?P<spare>[0-9A-F]+) len=(?P<len>\d+)"
    r" payload=(?P<payload>[0-9A-F]*) again=(?P<again>[0-9A-F]*) same=(?P<same>\d+))?"
)


def fields(lines):
    """The fields of each line that the program wrote, by the line's name, numbers as numbers."""
    told = {}
    for form in filter(None, map(WRITTEN.fullmatch, lines)):
        found = {name: value for name, value in form.groupdict().items() if value is not None}
        bases = {**dict.fromkeys(("mt", "pbf", "id", "len", "same"), 10), **dict.fromkeys(("oid", "credits", "spare"), 16)}
        for name in found.keys() & bases.keys():
            found[name] = int(found[name], bases[name])
        if found.get("payload"):
            found["first"], found["last"] = int(found["payload"][:2], 16), int(found["payload"][-2:], 16)
        told[found.pop("no")] = found
    return told


# ---- the checks


def wrong_facts(vectors, told):
    """How many facts the explanations have, and those that a packet's fields do not bear out."""
    count, wrong, before = 0, [], {}
    for v in vectors:
        found = told.get(v.number, {})
        for field, values in facts(v, before):
            count += 1
            if found.get(field) not in values:
                wrong.append(f"{v.number}: {field} is {found.get(field)!r}, the explanation says {values}: {v.meaning}")
        before = dict(found, meaning=v.meaning)
    return count, wrong


def wrong_damage(vectors, whole, told):
    """A packet too short or of an RFU message type is a drop; an octet too many changes nothing."""
    for v in vectors:
        for name, _ in damaged(v.number, v.octets):
            expected = whole.get(v.number) if name.endswith("-long") else {"read": "drop"}
            if told.get(name) != expected:
                yield f"{name}: {told.get(name)}, expected {expected}"


def main():
    vectors = load()
    all_packets = list(packets(vectors))
    groups = {
        "packets": [line_in(*packet) for packet in all_packets],
        "damaged packets": [line_in(*p) for packet in all_packets if packet[1] for p in damaged(*packet)],
        "forms of a line": list(lines_of_form()),
    }
    files = stored("vectors", [line for lines in groups.values() for line in spaced(lines, STORED)], line_out)
    if sys.argv[1:] == ["--write"]:
        return write_stored(files)
    suite, program = Suite("vectors"), built("vectors")
    told = {name: fields(run_group(suite, program, name, lines, line_out)) for name, lines in groups.items()}
    count, wrong = wrong_facts(vectors, told["packets"])
    suite.check("explanations of the vectors", wrong, f"{count} facts")
    suite.check("damage", list(wrong_damage(vectors, told["packets"], told["damaged packets"])))
    check_stored(suite, files)
    return suite.end()


if __name__ == "__main__":
    sys.exit(main())
