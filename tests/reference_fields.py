"""Packets, messages, statuses and fields of docs/REFERENCE.md, held to their definitions, field by field."""
import re

from bindings import parameters
from definitions import definition
from reference_bench import BEFORE, IDLE, marking, played, shown
from reference_page import (
    CONFIG, CONTROLLER, FIELDS, HEADER, LAYOUT, NAMES, PAGE, TYPES, differ, names, octets, places, table, tables,
)

# ---- packets, messages, statuses


def reserved(rows, column, words):
    """The bits of octet 1 that a column of the header's table has as reserved."""
    mask = 0
    for row in rows:
        if row[0] == "1" and row[column].endswith(words):
            first, last = [int(bit) for bit in re.findall(r"\d+", row[1])]
            mask |= (2 << first) - (1 << last)
    return mask


def header_differs(texts):
    rows = table(texts, "octet", "bits")
    masks = dict(re.findall(r"^#define NCI_(RFU_\w+) (0x[0-9A-F]+)u", texts[HEADER], re.M))
    for name, column, words in (("CONTROL", 2, "reserved"), ("DATA_DOWN", 3, "reserved")):
        yield from differ(reserved(rows, column, words), int(masks["RFU_" + name], 0), name)
    # going up the two low bits are credits, and no reserved bits
    low = reserved(rows, 3, "going down: reserved")
    yield from differ(reserved(rows, 3, "reserved") & ~low, int(masks["RFU_DATA_UP"], 0), "DATA_UP")
    ends = [(row[0], [int(bit) for bit in re.findall(r"\d+", row[1])]) for row in rows]
    covered = sorted((octet, bit) for octet, bits in ends for bit in range(bits[-1], bits[0] + 1))
    yield from differ(covered, [(octet, bit) for octet in "012" for bit in range(8)], "bits")
    # a message of two segments: the first has the bit at 1, the last at 0
    pushed = played(*BEFORE["one loopback"], "ev=send arg=02AABBCCDDEE", "ev=push arg=02", "ev=push arg=02")[-2:]
    bits = [int(answered["pkt"][:2], 16) >> 4 & 1 for answered in pushed]
    said = f"{bits[0]} if more segments follow"
    yield from differ([row[2:] for row in rows if row[:2] == ["0", "4"]], [[said, said]] if bits == [1, 0] else bits)
    types = {name.lower(): int(said) for name, said in re.findall(r"^mt_(\w+) = (\d+)$", texts[TYPES], re.M)}
    said = {words.split(":")[0].replace("reserved", "rfu"): number for number, words in table(texts, "message type")}
    yield from differ(said, {name: str(n) if name != "rfu" else f"{n} to 7" for name, n in types.items()})
    yield from differ(marking.TYPES, [name for name in types if name != "rfu"])


KINDS = {"CMD": (1, "command"), "RSP": (2, "response"), "NTF": (3, "notification")}
# the words of a message, its group and opcode among the definitions, its name in the standard, and its kinds here
MESSAGES = {
    "reset": ("gid_core", "oid_reset", "CORE_RESET", "CMD RSP NTF"),
    "init": ("gid_core", "oid_init", "CORE_INIT", "CMD RSP"),
    "set configuration": ("gid_core", "oid_set_config", "CORE_SET_CONFIG", "CMD RSP"),
    "get configuration": ("gid_core", "oid_get_config", "CORE_GET_CONFIG", "CMD RSP"),
    "create": ("gid_core", "oid_conn_create", "CORE_CONN_CREATE", "CMD RSP"),
    "close": ("gid_core", "oid_conn_close", "CORE_CONN_CLOSE", "CMD RSP"),
    "credits": ("gid_core", "oid_conn_credits", "CORE_CONN_CREDITS", "NTF"),
    "generic error": ("gid_core", "oid_generic_error", "CORE_GENERIC_ERROR", "NTF"),
    "discover": ("gid_rf", "oid_discover", "RF_DISCOVER", "CMD RSP NTF"),
    "select": ("gid_rf", "oid_select", "RF_DISCOVER_SELECT", "CMD RSP"),
    "activated": ("gid_rf", "oid_activated", "RF_INTF_ACTIVATED", "NTF"),
    "deactivate": ("gid_rf", "oid_deactivate", "RF_DEACTIVATE", "CMD RSP NTF"),
}


def messages_differ(texts):
    numbers = names(texts)
    due, spoken = [], {}
    for words, (gid, oid, name, kinds) in MESSAGES.items():
        spoken[numbers[gid], numbers[oid]] = words
        for kind in kinds.split():
            mt, said = KINDS[kind]
            due.append([f"{mt << 5 | numbers[gid]:02X} {numbers[oid]:02X}", f"{words} {said}", f"{name}_{kind}"])
    yield from differ(table(texts, "octets 0 and 1"), due)
    yield from differ(marking.MESSAGES, spoken, "words of mark-paper")
    yield from differ({oid for _, oid, _, _ in MESSAGES.values()}, {name for name in numbers if name.startswith("oid")})


STATUSES = {
    "status_ok": "OK",
    "rejected": "rejected",
    "syntax_error": "syntax error",
    "semantic_error": "semantic error",
    "invalid_param": "invalid parameter",
    "size_exceeded": "message size exceeded",
    "already_started": "discovery already started",
    "activation_failed": "target activation failed",
}


def statuses_differ(texts):
    due = {number: STATUSES.get(name) for name, number in names(texts, "statuses").items()}
    yield from differ([row[:2] for row in table(texts, "octet", "status")], [[f"{n:02X}", words] for n, words in due.items()])
    yield from differ(marking.STATUSES, due, "words of mark-paper")


# ---- fields

# the definition of each message whose octets are defined in a row; the rest is judged by its shortest length
DEFINED = {
    "Init response": "init_rsp",
    "Create response": "create_rsp",
    "Reset notification": "reset_ntf",
    "Generic error notification": "generic_error_ntf",
    "Discover notification": "discover_ntf",
    "Activated notification": "activated_ntf",
    "Deactivate notification": "deactivate_ntf",
}
COMMANDS = {
    "Reset command": "Reset",
    "Init command": "Init",
    "Create command": "ConnCreate",
    "Close command": "ConnClose",
    "Discover command": "Discover",
    "Select command": "Select",
    "Deactivate command": "Deactivate",
}
# the constants of the code for fields of the page; a field that takes more octets, or has none of its own, stands for its first
PLACED = {
    "Create command": {"destination": "CREATE_DESTINATION", "number of parameters": "CREATE_PARAMETERS"},
    "Discover command": {
        "how many modes": "CONFIG_COUNT",
        "technology and mode of the first": "CONFIG_MODE",
        "frequency of the first": "CONFIG_FREQUENCY",
    },
    "Select command": {"protocol": "SELECT_PROTOCOL", "interface": "SELECT_INTERFACE"},
    "Init response": {
        "status": "STATUS",
        "most loopbacks": "INIT_CONNS",
        "size of the routing table": "INIT_ROUTES",
        "most payload of a control packet": "INIT_CONTROL",
        "payload of the HCI connection": "INIT_HCI",
        "number of interfaces": "INIT_INTERFACES",
        "the interface: Frame": "INIT_INTERFACE",
        "number of its extensions": "INIT_EXTENSIONS",
    },
    "Create response": {
        "status": "STATUS",
        "most payload of a data packet": "CREATE_PAYLOAD",
        "credits, FF for no flow control": "CREATE_CREDITS",
        "Conn ID": "CREATE_CONN",
    },
    "Reset notification": {
        "trigger: a reset command": "RESET_TRIGGER",
        "configuration: 00 kept, 01 reset": "RESET_CONFIG",
        "version: NCI 2.0": "RESET_VERSION",
        "manufacturer": "RESET_MAKER",
    },
    "Credits notification": {
        "how many entries": "ENTRY_COUNT",
        "Conn ID of the first": "ENTRY_CONN",
        "credits of the first": "ENTRY_CREDITS",
    },
    "Generic error notification": {"status: target activation failed": "STATUS"},
    "Discover notification": {
        "ID": "FOUND_ID",
        "protocol": "FOUND_PROTOCOL",
        "technology and mode": "FOUND_MODE",
        "n": "FOUND_PARAMS_LENGTH",
        "type: 0 last, 1 last at a limit, 2 more follow": "FOUND_TYPE",
    },
    "Activated notification": {
        "ID": "ACTIVATED_ID",
        "interface: Frame": "ACTIVATED_INTERFACE",
        "protocol": "ACTIVATED_PROTOCOL",
        "technology and mode": "ACTIVATED_MODE",
        "most payload of a data packet": "ACTIVATED_PAYLOAD",
        "credits, FF for no flow control": "ACTIVATED_CREDITS",
        "n": "ACTIVATED_PARAMS_LENGTH",
        "technology and mode of the data exchange": "ACTIVATED_EXCHANGE",
        "bit rate to the endpoint": "ACTIVATED_RATES",
    },
    "Deactivate notification": {"type": "DEACTIVATE_TYPE", "reason": "DEACTIVATE_REASON"},
}
# the constants for lengths, and for the octets of one of several entries
LENGTHS = {
    "Init response": "INIT_LENGTH",
    "Create response": "CREATE_LENGTH",
    "Reset notification": "RESET_LENGTH",
    "Generic error notification": "STATUS_LENGTH",
    "Discover notification": "FOUND_LENGTH",
    "Activated notification": "ACTIVATED_LENGTH",
    "Deactivate notification": "DEACTIVATE_LENGTH",
    "Discover command": "CONFIG_SIZE",
    "Credits notification": "ENTRY_SIZE",
}
# lists of configuration parameters: what the heading says of the length, what the definition has for an entry, and how many octets
# stand before the first
LISTS = {
    "Set configuration command": ("1 octet, and for each parameter 2 and its value", "param_at m n + 2 + get_or m", 1),
    "Get configuration command": ("1 octet and 1 for each parameter", "asked_in m n = get_or m (1 + n) 0", 1),
    "Set configuration response": ("2 octets and 1 for each invalid parameter", "(id_in m n ∷ [])", 2),
    "Get configuration response": ("2 octets, and for each parameter 2 and its value", "id ∷ length (value_of b (row_of id)) ∷", 2),
}
LAYOUTS = {*DEFINED, *COMMANDS, *LISTS, "Credits notification"}
# verdicts whose response has the status alone, by the command
ALONE = {
    "Resets type": "reset",
    "Closes id": "close",
    "Turns rf": "discover",
    "Selects pair": "select",
    "Deactivates type rf": "deactivate",
}


def layouts(texts):
    """The messages of the page with what is said of their length and their rows."""
    for heading, head, rows in tables(texts[PAGE]):
        if head == ["octet", "field", "value"]:
            name, _, length = heading.partition(": ")
            yield name, length, rows


def defined_octets(texts, name):
    """The octets of a message by its definition: numbers, None for what varies, and 'n octets' for parameters."""
    text = re.sub(r"[()]", "", definition(texts[LAYOUT], name)).replace("++", "∷")
    numbers = names(texts)
    for word in [word.strip() for word in text.split("∷")]:
        if word == "params":
            yield "n octets"
        elif word != "[]":
            yield int(word, 0) if word.startswith("0x") else numbers.get(word)


def row_octets(rows):
    """The octets of a message by the page, in the same form, with what is wrong with their places."""
    found, wrong, at, n = [], [], 0, ""
    for place, field, value in rows:
        count = 1
        if place.endswith(", n octets"):
            found.append("n octets")
            due, count, n = f"{at}, n octets", 0, " + n"
        else:
            ends = re.fullmatch(r"(\d+) to (\d+)", place)
            count = int(ends[2]) - int(ends[1]) + 1 if ends else 1
            due = f"{at} to {at + count - 1}" if count > 1 else f"{at}{n}"
            found += octets(value) or [None] * count
        if place != due or (octets(value) and len(octets(value)) != count):
            wrong.append(f"{field} is at {place}, due is {due}")
        at += count
    return found, wrong, at


def length_words(texts, name, count):
    """What the heading is to say of the length."""
    said = f"{count} octet{'' if count == 1 else 's'}"
    if name in ("Discover command", "Credits notification"):
        size = places(texts)[LENGTHS[name]]
        return f"1 octet and {size} for each {'mode' if name == 'Discover command' else 'entry'}"
    return said + " and the parameters" * (name in ("Discover notification", "Activated notification"))


def layout_differs(texts, name, length, rows):
    """One message: its places in a row, its octets and its length as they are defined, its fields where the code has them."""
    found, wrong, count = row_octets(rows)
    yield from wrong
    if name in LISTS:
        said, entry, before = LISTS[name]
        yield from differ(length, said, "length")
        yield from differ((entry in texts[CONFIG], count), (True, before + (2 if "its value" in said else 1)), entry)
        return
    if name in DEFINED:
        yield from differ(found, list(defined_octets(texts, DEFINED[name])), "octets")
        yield from differ(count, places(texts)[LENGTHS[name]], "length")
    if name in COMMANDS:
        shortest = re.search(rf"^shortest {COMMANDS[name]} m = (\d+)( \+ 2 \* get_or m 0 0)?$", texts[CONTROLLER], re.M)
        yield from differ(count, int(shortest[1]) + (2 if shortest[2] else 0), "length")
    yield from differ(length, length_words(texts, name, count), "length")
    at = {field: int(re.match(r"\d+", place)[0]) for place, field, _ in rows}
    for field, constant in PLACED.get(name, {}).items():
        yield from differ(at.get(field), places(texts).get(constant), f"{field} at")


def layouts_differ(texts):
    found = list(layouts(texts))
    yield from differ(sorted(name for name, _, _ in found), sorted(LAYOUTS), "messages")
    for name, length, rows in found:
        yield from (f"{name}: {wrong}" for wrong in layout_differs(texts, name, length, rows))
    known = {constant for placed in PLACED.values() for constant in placed.values()} | set(LENGTHS.values())
    yield from differ(known, set(places(texts)), "constants")
    alone = re.search(r"^The responses to (.*) have the status alone", texts[PAGE], re.M)[1]
    due = [words for verdict, words in ALONE.items() if f"response_of p b m (Ok ({verdict})) = status_ok ∷ []\n" in texts[LAYOUT]]
    yield from differ(re.split(", | and ", alone), due, "status alone")


# ---- configuration parameters


def parameters_differ(texts):
    """The table of the page has the rows of the definition's, and each parameter has its default in IDLE."""
    due = []
    for name, number, said in parameters(texts):
        values, default = said.split("; by default ")
        size, _, rest = values.partition(" octets, ")
        due.append([f"{number:02X}", name, size if rest else "1", default, rest or values])
    yield from differ(table(texts, "ID", "parameter"), due)
    defaults = {int(row[0], 16): row[3].removeprefix("none") for row in due}
    yield from differ(shown(IDLE, *defaults), defaults, "shown")
