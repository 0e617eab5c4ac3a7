"""What the keys are to say of configuration messages, made of their octets, in full and in brief; and that they say it."""
import random
import re

from programs import ROOT
from worked import KEYS, SEED, Worked, fed, unlike

# by ID: the standard's name, and what is said in brief
PARAMETERS = {
    0x08: "PA_BAIL_OUT", 0x09: "PA_DEVICES_LIMIT", 0x10: "PB_AFI", 0x11: "PB_BAIL_OUT", 0x13: "PB_SENSB_REQ_PARAM",
    0x14: "PB_DEVICES_LIMIT", 0x18: "PF_BIT_RATE", 0x19: "PF_BAIL_OUT", 0x1A: "PF_DEVICES_LIMIT", 0x20: "PI_B_H_INFO",
    0x21: "PI_BIT_RATE", 0x28: "PN_NFC_DEP_PSL", 0x2A: "PN_ATR_REQ_CONFIG", 0x2F: "PV_DEVICES_LIMIT", 0x68: "PACM_BIT_RATE",
}
SPOKEN = {
    0x08: "bail out A", 0x09: "limit A", 0x10: "AFI", 0x11: "bail out B", 0x13: "sens B", 0x14: "limit B", 0x18: "bit rate F",
    0x19: "bail out F", 0x1A: "limit F", 0x20: "H info", 0x21: "bit rate ISO", 0x28: "PSL", 0x2A: "ATR request",
    0x2F: "limit vicinity", 0x68: "bit rate active",
}
KINDS, KEY_OF = {1: "CMD", 2: "RSP"}, {2: "set", 3: "get"}
STATUSES = {
    0x00: "ok", 0x01: "rejected", 0x05: "syntax error", 0x06: "semantic error", 0x09: "invalid parameter",
    0x0A: "message size exceeded", 0xA0: "discovery already started", 0xA1: "target activation failed",
}
SPOKEN_STATUSES = {**STATUSES, 0x00: "OK", 0x0A: "size exceeded", 0xA0: "already started", 0xA1: "activation failed"}
DIGITS = "0 1 2 3 4 5 6 7 8 9 alfa bravo charlie delta echo foxtrot".split()
# of a list in full so many parameters are said, of a value so many octets, in brief fewer
MOST_LISTED, MOST_OF_VALUE, MOST_OF_BRIEF_VALUE = 15, 15, 4
# characters of a full line that are to be heard, fifteen parameters among them
MOST_OF_CONFIG = 850
# characters of a breath, and of the pause between two clauses
BREATH, PAUSE = 78, 4


def plural(count, word):
    return f"{count} {word}{'' if count == 1 else 's'}"


# ---- lists


def is_config(octets):
    """Whether a packet is a whole command, or a response with a status, of those that list parameters."""
    return octets[1] & 63 in KEY_OF and (octets[0] == 0x20 or octets[0] == 0x40 and octets[2] > 0)


def listed(octets, values):
    """The parameters of a list, each with its value, and the octets behind it: None where it is cut short."""
    found, rest, head = [], octets[1:], 2 if values else 1
    for _ in range(octets[0] if octets else 1):
        length = rest[1] if values and len(rest) > 1 else 0
        if len(rest) < head + length:
            return found, None
        found.append((rest[0], rest[head:head + length]))
        rest = rest[head + length:]
    return found, rest


def list_of(mt, oid, payload):
    """The list's octets, whether it has values, and what is said for a value of no octets: None where no value is said. None for
    a message without a list."""
    if mt == 1:
        return payload, oid == 2, "default" if oid == 2 else None
    if len(payload) < 2 or payload[0] not in (0, 9) or (payload[0], oid) == (0, 2):
        return None
    return payload[1:], oid == 3, "empty" if payload[0] == 0 else None


# ---- in full


def parameter_said(number, value, empty):
    name = PARAMETERS.get(number, f"0x{number:02X}")
    if empty is None:
        return name
    return f"{name} of {plural(len(value), 'octet')}" if len(value) > MOST_OF_VALUE else f"{name} {value.hex().upper() or empty}"


def list_said(octets, values, empty):
    found, rest = listed(octets, values)
    said = [parameter_said(number, value, empty) for number, value in found[:MOST_LISTED]]
    if octets[:1] == b"\0":
        said = ["no parameter"]
    if len(found) >= MOST_LISTED < octets[0]:
        said.append(f"and {octets[0] - MOST_LISTED} more")
    elif rest is None:
        said.append("list cut short")
    elif rest:
        said.append(f"{plural(len(rest), 'octet')} to spare")
    return ", ".join(said)


def config_said(mt, oid, payload):
    """All that is said behind the name of a configuration message."""
    status = "" if mt == 1 else " " + STATUSES.get(payload[0], f"status {payload[0]:02X}")
    found = list_of(mt, oid, payload)
    if found is None:
        return status
    before = " " if mt == 1 else ", " if payload[0] == 0 else ": " if oid == 2 else ", not available: "
    return status + before + list_said(*found)


# ---- in brief


def digits_heard(octet):
    return " ".join(DIGITS[digit] for digit in divmod(octet, 16))


def id_heard(number):
    return str(number) if number < 10 else digits_heard(number)


def value_heard(value):
    if len(value) > MOST_OF_BRIEF_VALUE:
        return plural(len(value), "octet")
    return id_heard(value[0]) if len(value) == 1 else ", ".join(map(digits_heard, value))


def parameter_heard(number, value, empty):
    """An ID without a name and the digits of its value are kept apart."""
    name = SPOKEN.get(number) or f"ID {id_heard(number)}"
    if empty is None:
        return name
    return f"{name} {empty}" if not value else f"{name}{'' if number in SPOKEN else ' value'} {value_heard(value)}"


def in_breaths(clauses):
    """Clauses as they are said together."""
    groups = [[]]
    for clause in clauses:
        if groups[-1] and sum(len(said) + PAUSE for said in groups[-1]) + len(clause) > BREATH:
            groups.append([])
        groups[-1].append(clause)
    return groups


def breaths(clauses):
    """The lines that clauses are said in."""
    *groups, last = in_breaths(clauses)
    return [*(", ".join([*group, "more"]) for group in groups), ", ".join(last)]


def whole_list(mt, oid, payload):
    """The list of a message of its own form, as above, or None. Parameters that are not available have length 0."""
    found = list_of(mt, oid, payload)
    if found is None or listed(*found[:2])[1] != b"":
        return None
    return None if (mt, oid, payload[0]) == (2, 3, 9) and len(payload) != 2 + 2 * payload[1] else found


def config_heard(mt, oid, payload):
    """The lines for what stands behind the name; a message of another form is said by its length."""
    before = " command" if mt == 1 else f" {SPOKEN_STATUSES[payload[0]]}"
    if mt == 2 and (len(payload) == 1 and payload != b"\0" or (oid, payload) == (2, b"\0\0")):
        return [before]
    found = whole_list(mt, oid, payload)
    if found is None:
        return [f"{before}, {plural(len(payload), 'octet')}"]
    octets, values, empty = found
    first, *more = breaths([parameter_heard(number, value, empty) for number, value in listed(octets, values)[0]])
    return [f"{before}, {first or 'no parameter'}", *more]


# ---- messages, most of them of their own form


def any_list(rng, values):
    octets = b""
    count = rng.choice([0, 1, 1, 2, 3, 4, 6, 15, 16, 40])
    for _ in range(count):
        number = rng.choice(list(PARAMETERS)) if rng.random() < 0.8 else rng.randrange(256)
        length = rng.choice([0, 1, 2, 3, 4, 5, 15, 16, 40]) if rng.random() < 0.4 else 1
        value = bytes(rng.choice([rng.randrange(4), rng.randrange(256)]) for _ in range(length))
        octets += bytes([number, *([length, *value] if values else [])])
    octets = bytes([count]) + octets
    return octets[:rng.randrange(len(octets) + 1)] if rng.random() < 0.1 else octets + rng.randbytes(rng.choice([0] * 9 + [2]))


def any_payload(rng, mt, oid):
    if mt == 1:
        return any_list(rng, oid == 2)
    status = rng.choice([0, 0, 9, 9, rng.choice(list(STATUSES))])
    octets = any_list(rng, oid == 3 and (status == 0 or rng.random() < 0.2))
    if (oid, status) == (3, 9) and rng.random() < 0.9:
        octets = octets[:1] + b"".join(bytes([number, 0]) for number in octets[1:])
    if (oid, status) == (2, 0) and rng.random() < 0.9:
        octets = b"\0"
    return bytes([status]) + octets * rng.choice([0, 1, 1, 1, 1])


def config_packets(count):
    """Message type, OID and payload."""
    rng = random.Random(SEED)
    for _ in range(count):
        mt, oid = rng.choice([1, 2]), rng.choice([2, 3])
        payload = any_payload(rng, mt, oid)
        if len(payload) < 256:
            yield mt, oid, payload


# ---- what is said


def key_for(mt, oid, payload):
    return f"read {mt << 5:02X} {oid:02X} {len(payload):02X} {payload.hex()}"


def check_packets(suite):
    """Each is read as a packet in both forms; in brief the key more goes on to the end."""
    wrong, lines = [], set()
    packets = list(config_packets(3000))
    with Worked(suite, terminal=False) as full, Worked(suite, False, KEYS, "--brief") as brief:
        for mt, oid, payload in packets:
            key = key_for(mt, oid, payload)
            name = f"CORE_{KEY_OF[oid].upper()}_CONFIG_{KINDS[mt]}"
            line, due = full.press(key), f'says="{name}{config_said(mt, oid, payload)}"'
            first, *more = config_heard(mt, oid, payload)
            heard = [brief.press(key), *(brief.press("more") for _ in more)]
            end = brief.press("more") if more else "no more"
            lines.add(line)
            if not line.endswith(f" msg= {due}") or len(line) > MOST_OF_CONFIG:
                wrong.append(f"{key}: {line}, expected {due}")
            if heard != [f"parsed {KEY_OF[oid]}{first}", *more] or end != "no more":
                wrong.append(f"{key}: {heard}, expected {[first, *more]}")
    suite.check("configuration messages, both forms", wrong, f"{len(packets)} packets, {len(lines)} different lines")


def check_names(suite):
    """The names of parameters, by help: of all, and of one."""
    names = [f"{number:02X} {name}" for number, name in PARAMETERS.items()]
    spoken = breaths([f"{name} ID {id_heard(number)}" for number, name in SPOKEN.items()])
    with Worked(suite, terminal=False) as full, Worked(suite, False, KEYS, "--brief") as brief:
        suite.equal("help parameters", full.press("help parameters"), f'ev=help ans=0 says="{", ".join(names)}"')
        said = [brief.press("help parameters"), *(brief.press("more") for _ in spoken)]
        suite.equal("help parameters in brief", said, [*spoken, "no more"])
        for number, name in PARAMETERS.items():
            for asked in (f"{number:x}", name, name.lower()):
                suite.equal(f"help {asked}", full.press(f"help {asked}"), f'ev=help ans=0 says="{number:02X} {name}"')
                due = f"{SPOKEN[number]} ID {id_heard(number)}"
                suite.equal(f"help {asked} in brief", brief.press(f"help {asked}"), due)
        for asked in ("12", "0820", "PA_BAIL", "parameter"):
            suite.holds(f"help {asked}", brief.press(f"help {asked}").startswith("3, bad, "))


def check_page(suite):
    """docs/BY-EAR.md has every parameter, and its session is heard as it says."""
    section = (ROOT / "docs" / "BY-EAR.md").read_text().split("## Configuration parameters")[1].split("## ")[0]
    said = re.findall(r"^- (\w\w), ([\w ]+), is ([A-Z ]+)", section, re.M)
    due = [(f"{number:02X}", SPOKEN[number], name.replace("_", " ")) for number, name in PARAMETERS.items()]
    suite.equal("docs/BY-EAR.md, the parameters", [(number, spoken, name.strip()) for number, spoken, name in said], due)
    keys = [key.strip() for key in re.split("[,;]", re.search("Behind reset and init, type (.*):", section)[1])]
    before = "reset down up up init down up".split()
    heard = fed([KEYS, "--brief"], "\n".join([*before, *keys]).encode())[0].splitlines()[len(before):]
    suite.check("docs/BY-EAR.md, the session with parameters", unlike(heard, re.findall("^    (.*)$", section, re.M)))


def check_config(suite):
    check_packets(suite)
    check_names(suite)
    check_page(suite)
