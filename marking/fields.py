"""The fields of an answer, and what their values mean in words. Numbers of refusals are worded as docs/CARD.md words them."""
import re
from functools import lru_cache

from files import ROOT, Cannot, read

TYPES = ["data", "command", "response", "notification"]
# messages by GID and OID, in the words of docs/REFERENCE.md
MESSAGES = {
    (0, 0): "reset",
    (0, 1): "init",
    (0, 2): "set configuration",
    (0, 3): "get configuration",
    (0, 4): "create",
    (0, 5): "close",
    (0, 6): "credits",
    (0, 7): "generic error",
    (1, 3): "discover",
    (1, 4): "select",
    (1, 5): "activated",
    (1, 6): "deactivate",
}
STATUSES = {
    0x00: "OK",
    0x01: "rejected",
    0x05: "syntax error",
    0x06: "semantic error",
    0x09: "invalid parameter",
    0x0A: "message size exceeded",
    0xA0: "discovery already started",
    0xA1: "target activation failed",
}
UNKNOWN = "no value of this field"


def parsed(line):
    """The fields of a line, in their order; none for a line that is not made of fields."""
    words = [word.partition("=") for word in line.split(" ")]
    found = {name: value for name, sign, value in words if sign}
    return found if len(found) == len(words) else {}


@lru_cache(maxsize=None)
def card():
    """What the numbers of answers mean."""
    path = ROOT / "docs" / "CARD.md"
    found = dict(re.findall(r"^- (\d+): (.*)\.$", read(path).decode(), re.M))
    if not found:
        raise Cannot(f"{path} has no numbers")
    return {"0": "taken", **found}


def counted(number, noun):
    return f"{number} {noun}{'' if number == 1 else 's'}"


def octets_of(value):
    """The octets of capital hex digits, or None."""
    return bytes.fromhex(value) if re.fullmatch(r"(?:[0-9A-F]{2})*", value) else None


def control_words(kind, gid, oid, payload):
    name = MESSAGES.get((gid, oid), f"GID {gid:X} OID {oid:02X}")
    status = ""
    if kind == "response" and payload:
        status = f", status {STATUSES.get(payload[0], format(payload[0], '02X'))}"
    return f"{name} {kind}{status}"


def packet_words(packet):
    """One whole packet."""
    kind, more, low = packet[0] >> 5, packet[0] >> 4 & 1, packet[0] & 15
    ending = ", more follows" if more else ""
    if kind >= len(TYPES):
        return f"reserved message type {kind}"
    if kind > 0:
        return control_words(TYPES[kind], low, packet[1] & 63, packet[3:]) + ending
    credits = f", {counted(packet[1] & 3, 'credit')}" if packet[1] & 3 else ""
    return f"data on connection {low}, {counted(packet[2], 'octet')}{ending}{credits}"


def packets_words(value):
    octets, said = octets_of(value), []
    if octets is None:
        return UNKNOWN
    while octets:
        if len(octets) < 3 or len(octets) < 3 + octets[2]:
            return "; ".join([*said, f"{counted(len(octets), 'octet')} that are no whole packet"])
        said.append(packet_words(octets[: 3 + octets[2]]))
        octets = octets[3 + octets[2] :]
    return "; ".join(said) or "no packet"


def message_words(value):
    octets = octets_of(value)
    if value in ("", "-"):
        return "an empty message" if value else "no message"
    return UNKNOWN if octets is None else f"a message of {counted(len(octets), 'octet')}"


def reserved_words(value):
    octets = octets_of(value)
    if octets is None or len(octets) != 1:
        return UNKNOWN
    bits = [str(bit) for bit in range(7, -1, -1) if octets[0] >> bit & 1]
    if not bits:
        return "no reserved bit at 1"
    names = " and ".join([", ".join(bits[:-1])] * (len(bits) > 1) + bits[-1:])
    return f"reserved bit{'s' if len(bits) > 1 else ''} {names} of octet 1 at 1"


def moves_words(value):
    return counted(int(value), "move") if re.fullmatch(r"0|[1-9][0-9]{0,4}", value) else UNKNOWN


CALLS = "fresh power command send push down consume credit air reply up report read run".split()
DROPS = {"0": "nothing dropped", "1": "a packet, or an entry of a credit notice, dropped"}


def words(field, value):
    """What a value of a field means."""
    if field == "ev":
        return "no line of the sheet" if value == "bad" else f"the call {value}" if value in CALLS else UNKNOWN
    if field == "ans":
        return card().get(value, "no number of the card")
    if field == "drop":
        return DROPS.get(value, UNKNOWN)
    meaning = {"rfu": reserved_words, "pkt": packets_words, "msg": message_words, "moves": moves_words}.get(field)
    return meaning(value) if meaning else "no field of an answer"
