#!/usr/bin/env python3
"""The worked front end, front/keys: built, and worked at a terminal and through a pipe, where each answer is to come before
the next key is typed.

    front.py            builds it and runs all tests; the last line is 'front: N passed, M failed'
    front.py --built    leaves the building out

A session with its answers is in tests/data/keys.txt, one with packets that have reserved bits at 1 in
tests/data/forged-keys.txt; the second implementation's lists, typed as keys, have to give the same fields; the card has to
be that of docs/CARD.md; any octets have to be answered line by line, also under the sanitizers and valgrind, where they are
at hand. tests/front_config.py has configuration messages, tests/keys.py the brief form and all that is for the ear."""
import random
import re
import shutil
import subprocess
import sys
import tempfile
from pathlib import Path

from front_config import MOST_OF_CONFIG, PARAMETERS, check_config, config_said, is_config, listed
from programs import ROOT, Suite
from worked import FIELDS, HEX, KEYS, NOTE, SEED, Worked, check_session, fed, session

SOURCES = sorted((ROOT / "front").glob("*.c"))
# the front end with a key that sets reserved bits of a packet on a wire
FORGED_KEYS = ROOT / "tests" / "c" / "forged_keys.c"
STRICT = ["-std=c99", "-Wall", "-Wextra", "-Wpedantic", "-Werror", f"-I{ROOT / 'include'}"]
LIBRARY = ROOT / "build" / "lib" / "libnci_bench.a"
MOST_CHARACTERS = 4096
# the card's numbers: there is no 13
NUMBERS = [*range(1, 13), 14, 15]
HAS = "the card has numbers 0 to 12, 14 and 15; card 9: "
# digits of a profile, one pair for connections 2 to 5 or one for each
PROFILES = (10, 22)
GROUPS = ["commands", "moves", "events", "bench", "speech"]
# the most characters that are to be heard of a line, octets aside, and of a fresh that names each connection
MOST_HEARD, MOST_OF_FRESH = 200, 300

SAYS = r'says="[ !#-~]+"'
CALLS = "fresh|power|command|send|push|down|consume|credit|air|reply|up|report|read"
ANSWERS = "|".join(map(str, [0, *NUMBERS]))
# of run packets are not told, nor reserved bits, and moves are counted
LINE = re.compile(
    f"ev=(?:{CALLS}) ans=(?:{ANSWERS}) drop=[01] rfu=[0-9A-F]{{2}} pkt={HEX} msg=(?:-|{HEX}) {SAYS}"
    f"|ev=run ans=0 drop=[01] rfu=00 pkt= msg=(?:-|{HEX}) moves=(?:0|[1-9][0-9]*) {SAYS}"
    f"|ev=bad ans=3 {SAYS}|ev=(?:octets|more|state|full|card|help|quit) ans=0 {SAYS}"
)


# ---- packets with reserved bits at 1


def check_forged(suite, folder):
    """Calls from fresh put no reserved bits at 1, so down and up meet them here alone. What is said has every bit, and
    stays short."""
    program, others = folder / "forged_keys", [source for source in SOURCES if source.name != "keys.c"]
    suite.equal("forged keys", compiled(["gcc", *STRICT, FORGED_KEYS, *others, LIBRARY, "-o", program]), ("", 0))
    check_session(suite, False, "forged-keys", program)
    keys, lines = zip(*session("forged-keys"))
    brief = fed([program], "\n".join(("brief", *keys)).encode())[0].splitlines()[1:]
    suite.equal("forged keys in brief, number of answers", len(brief), len(keys))
    for key, line, words in zip(keys, lines, brief):
        fields = FIELDS.fullmatch(line)
        bits = int(fields[4], 16) if fields else 0
        good = fields is None or (len(heard(line)) <= MOST_HEARD and says_reserved(fields[8], bits))
        suite.holds(f"forged keys, words for {key}", good, line)
        suite.equal(f"forged keys in brief, {key}", brief_bits(words), bits)


# ---- the lists of the second implementation, typed as keys

# of each kind of air: its key, and octets with the kind: how many at least and at most
AIR = {
    1: ("found", 5, 9999), 2: ("poll", 4, 9999), 3: ("listen", 4, 9999), 4: ("failed", 1, 1), 5: ("sleeps", 1, 1),
    6: ("lost", 1, 1), 7: ("releases", 1, 1), 8: ("says", 1, 9999),
}


def discover_of(p):
    """Modes alone are typed, so the count has to be right and every frequency 01."""
    fits = p and len(p) == 1 + 2 * p[0] > 1 and set(p[2::2]) == {1}
    return "discover " + p[1::2].hex(" ") if fits else None


def set_of(p):
    """Every other parameter by its name, where it has one."""
    found, rest = listed(p, values=True)
    names = [PARAMETERS.get(number, f"{number:02x}") if n % 2 else f"{number:X}" for n, (number, _) in enumerate(found)]
    pairs = " ".join(f"{name} {value.hex() or 'default'}" for name, (_, value) in zip(names, found))
    return f"set {pairs}" if found and rest == b"" else None


def get_of(p):
    return f"get {p[1:].hex()}" if p and len(p) == 1 + p[0] > 1 else None


# of each command that has a key: the key for a payload, where there is one
COMMANDS = {
    (0, 0): lambda p: f"reset {p.hex()}" if len(p) == 1 else None,
    (0, 1): lambda p: "init" if p == bytes([0, 0]) else None,
    (0, 2): set_of,
    (0, 3): get_of,
    (0, 4): lambda p: "create" if p == bytes([1, 0]) else None,
    (0, 5): lambda p: f"close {p[0]:X}" if len(p) == 1 else None,
    (1, 3): discover_of,
    (1, 4): lambda p: f"select {p[0]:x} {p[1]:02X}" if len(p) == 3 and p[2] == 1 else None,
    (1, 6): lambda p: f"deactivate {p[0]:X}" if len(p) == 1 else None,
}


def key_of(name, arg):
    """The key for a line of the sheet: by its own name where it has one."""
    if name == "command":
        key = COMMANDS.get((arg[0], arg[1]), lambda _: None)(arg[2:])
        return key or f"command {arg[0]:X} {arg[1]:X} {arg[2:].hex()}"
    if name == "air" and arg[0] in AIR:
        key, least, most = AIR[arg[0]]
        if least <= len(arg) <= most:
            return f"{key} {arg[1:].hex(' ')}"
    return f"{name} {arg.hex().upper()}"


def lists():
    """Keys, and the fields that the second implementation gives. A profile that is neither five octets nor eleven is no
    key."""
    text = (ROOT / "tests" / "data" / "lists.txt").read_text()
    lines = re.findall("^ev=.*$", text, re.M)
    for asked, answered in zip(lines[::2], lines[1::2]):
        name, arg = re.fullmatch(f"ev=([a-z]+) arg=({HEX})", asked).groups()
        fits = name != "fresh" or len(arg) in PROFILES
        yield key_of(name, bytes.fromhex(arg)), answered if fits else "ev=bad ans=3"


NAMES = {
    (0, 0): "CORE_RESET", (0, 1): "CORE_INIT", (0, 2): "CORE_SET_CONFIG", (0, 3): "CORE_GET_CONFIG",
    (0, 4): "CORE_CONN_CREATE", (0, 5): "CORE_CONN_CLOSE", (0, 6): "CORE_CONN_CREDITS", (0, 7): "CORE_GENERIC_ERROR",
    (1, 3): "RF_DISCOVER", (1, 4): "RF_DISCOVER_SELECT", (1, 5): "RF_INTF_ACTIVATED", (1, 6): "RF_DEACTIVATE",
}


def data_said(conn, more, credits, length):
    """All that is said of a data packet; of credits where it carries some."""
    said = f"data on connection {conn}, {plural(length, 'octet')}, {'more follows' if more else 'last'}"
    return f"{said}, {plural(credits, 'credit')}" if credits else said


def named(octets):
    """What is said first of each packet in a field pkt, and of data and configuration messages all."""
    while octets:
        mt, low, oid, length = octets[0] >> 5, octets[0] & 15, octets[1] & 63, octets[2]
        kind = ["data", "CMD", "RSP", "NTF"][mt]
        if mt == 0:
            yield data_said(low, octets[0] & 16, octets[1] & 3, length)
        elif is_config(octets):
            yield f"{NAMES[low, oid]}_{kind}{config_said(mt, oid, octets[3:3 + length])}"
        elif (low, oid) in NAMES:
            yield f"{NAMES[low, oid]}_{kind}"
        else:
            yield f"GID {low:X} OID {oid:02X} {kind}"
        octets = octets[3 + length:]


def command_said(octets):
    """What is said of the segments of a command."""
    payload, count = b"", 0
    first = octets
    while octets:
        payload, octets, count = payload + octets[3:3 + octets[2]], octets[3 + octets[2]:], count + 1
    whole = next(named(bytes([first[0] & 0xEF, first[1], len(payload)]) + payload))
    return whole + (f" in {count} packets" if count > 1 else "")


def plural(count, word):
    return f"{count} {word}{'' if count == 1 else 's'}"


def counted(length):
    return f"message of {plural(length, 'octet')}" if length else "empty message"


def says_packet(part, name):
    return part == name if name.startswith("data ") or "_CONFIG_" in name else part.startswith(name)


def reserved_said(rfu):
    """The words for reserved bits at 1."""
    bits = [str(bit) for bit in range(7, -1, -1) if rfu >> bit & 1]
    if len(bits) == 1:
        return f"reserved bit {bits[0]} of octet 1 is at 1"
    return f"reserved bits {', '.join(bits[:-1])} and {bits[-1]} of octet 1 are at 1"


def brief_bits(line):
    """The reserved bits that a brief line names, as "7 and 6", "7 to 2" or "3"."""
    said = re.search("reserved ([0-7](?:(?: and| to)? [0-7])*)", line)
    bits = [int(bit) for bit in re.findall("[0-7]", said[1])] if said else []
    if said and " to " in said[1]:
        bits = range(bits[1], bits[0] + 1)
    return sum(1 << bit for bit in bits)


def says_reserved(says, rfu):
    """Whether these bits are said, and none where there are none."""
    return reserved_said(rfu) in says if rfu else "reserved" not in says


def why_dropped(octets):
    if len(octets) < 3:
        return "fewer than 3 octets"
    return f"RFU message type {octets[0] >> 5}" if octets[0] > 127 else "payload shorter than octet 2 states"


def says_read(says, octets, dropped, rfu):
    """Whether a read says why the octets are dropped, or names the packet and its reserved bits."""
    if dropped:
        return says == f"dropped: {why_dropped(octets)}"
    packet, *bits = says.split("; ")
    return says_packet(packet, next(named(octets))) and bits == ([reserved_said(rfu)] if rfu else [])


def says_run(says, dropped, message, moves):
    """Whether a press says its fields, where the message came out, and whether a move is left: after no message none is.
    tests/keys.py holds the end, the connection and the rest to the moves."""
    said = f"{plural(moves, 'move') if moves else 'no moves'}{'; some dropped' * dropped}"
    if message is None:
        return says == f"{said}; at rest"
    out = f"{said}; {counted(message)} handed out at the (?:host|controller) on connection [02345]; (?:at rest|moves are left)"
    return moves > 0 and re.fullmatch(out, says)


def heard(line):
    """A line without its octets."""
    return re.sub("(pkt|msg)=[0-9A-F]*", "", line)


def says_right(key, line, card):
    """Whether a line says its refusal, or names each packet that it shows, in their order, and tells what was handed out or
    dropped. A command's segments are named once."""
    fields = FIELDS.fullmatch(line)
    if fields is None:
        return line.startswith("ev=bad ")
    event, answer, dropped, rfu, packets, message, moves, says = fields.groups()
    if answer != "0":
        return says == f"{answer}: {card[int(answer)]}"
    if event == "read":
        return says_read(says, bytes.fromhex(key.removeprefix("read ")), dropped == "1", int(rfu, 16))
    if event == "run":
        return says_run(says, dropped == "1", len(message.strip("-")) // 2 if message else None, int(moves))
    if event == "command":
        return says == command_said(bytes.fromhex(packets))
    names = list(named(bytes.fromhex(packets)))
    parts = says.removeprefix("looped back ").split("; ")
    handed = [f"{counted(len(message.strip('-')) // 2)} handed out"] if message and event != "report" else []
    in_order = len(parts) >= len(names) and all(map(says_packet, parts, names))
    tells_handed = [part for part in parts if part.endswith("handed out")] == handed
    return in_order and tells_handed and (dropped == "1") == ("dropped" in says)


def check_lists(suite, card):
    keys, answers = zip(*lists())
    out, complaints, status = fed([KEYS], "\n".join(keys).encode())
    lines = out.splitlines()
    suite.equal("lists, number of answers", len(lines), len(keys))
    suite.equal("lists, exit status", (complaints, status), ("", 0))
    for key, line, answer in zip(keys, lines, answers):
        same = LINE.fullmatch(line) and line.split(" says=")[0] == answer
        most = MOST_OF_FRESH if line.startswith("ev=fresh ") else MOST_OF_CONFIG if "_CONFIG_" in line else MOST_HEARD
        good = same and len(heard(line)) <= most and says_right(key, line, card)
        suite.holds(f"lists, {key}", good, f"{line}, expected\n  {answer}")
    met = {line.split()[0] for line in lines}
    suite.equal("lists, every call", met >= {f"ev={call}" for call in [*CALLS.split("|"), "run"]}, True)


# ---- the card, help, and what is no key


def read_card():
    """The card's numbers and lines, without the full stop."""
    text = (ROOT / "docs" / "CARD.md").read_text()
    return {int(n): line for n, line in re.findall(r"^- ([0-9]+): (.*)\.$", text, re.M)}


def check_card(suite, card):
    suite.equal("the card's numbers", list(card), NUMBERS)
    with Worked(suite, terminal=False) as worked:
        for number, line in card.items():
            suite.equal(f"card {number}", worked.press(f"card {number}"), f'ev=card ans=0 says="{number}: {line}"')
        suite.equal("card 0", worked.press("card 0"), 'ev=card ans=0 says="0: taken"')
        others = ["13", "16", "99", "9 9", "-1", "0x9", "009", "013", "D", "F", "99999999999999999999"]
        for key in ["card", *(f"card {other}" for other in others)]:
            suite.holds(key, worked.press(key).startswith(f'ev=bad ans=3 says="{HAS}'))


def check_help(suite):
    with Worked(suite, terminal=False) as worked:
        answer = worked.press("help")
        names = answer.removeprefix('ev=help ans=0 says="').removesuffix('"').split()
        suite.equal("number of keys", len(names), 40)
        grouped = [worked.press(f"help {group}").split('"')[1].split(", ") for group in GROUPS]
        suite.equal("keys by group", sorted(sum(grouped, [])), sorted(names))
        document = (ROOT / "docs" / "FRONT-ENDS.md").read_text()
        for name in names:
            line = worked.press(f"help {name}")
            suite.holds(f"help {name}", LINE.fullmatch(line) and name in line and len(line) <= MOST_HEARD, line)
            suite.holds(f"docs/FRONT-ENDS.md has {name}", re.search(f"^- `{name}[ `]", document, re.M))
        for name in ("nothing", "push 2", "push push"):
            suite.holds(f"help {name}", worked.press(f"help {name}").startswith("ev=bad "))
        worked.press("brief")
        suite.equal("help in brief", worked.press("help"), f"help {', '.join(GROUPS)}")


NO_KEYS = [
    "", " ", "res", "resett", "reset 0 0", "reset 123", "reset g", "reset 0x1", "init 0", "close", "close 2 3",
    "select 1", "select 1 4 1", "deactivate 0 0", "command", "command 0", "command 0 G", "command 0 0 1234567",
    "send", "send 2 48656C6C6", "send 2 4865-6C", "push", "push 2 2", "push two", "down 1", "up 1", "consume",
    "credit 2", "found 1 4 0", "poll 1 4", "listen 1 4", "failed 1", "sleeps 1", "lost 1", "releases 1", "says hello",
    "air", "reply 0", "run 0", "run 2", "report", "read 20C00", "read 20 C0 0G", "power 1", "quit 1", "push\0 2",
    "push\u00a02", "again 1", "octets 1", "more 1", "state 0", "brief 1", "full 1",
    "set", "set 08", "set 08 01 18", "set default", "set 0818 01", "set 08 010", "set PA_BAIL 01", "set 08 defaults",
    "set 08 PA_BAIL_OUT", "get 0g", "get 008", "get PA_BAIL_OUT_", "get default", "set 20 " + "00" * 256,
    # no lines of the sheet
    "ev=down", "ev=down arg=0", "ev=down  arg=", " ev=down arg=", "ev=push arg=0a", "ev=push arg=02 ", "EV=down arg=",
    "ev=push arg=", "ev=run", "ev=run arg=00", "ev=runs arg=", "ev=help arg=", "ev=state arg=", "ev=fresh arg=20",
    # profiles of 1, 4, 6, 10 and 12 octets
    "fresh 20", "fresh 20040204", "fresh 200402040104", "fresh 20040204020402040204", "fresh 200402040204020402040104",
]
SAME_KEYS = [
    ("PUSH 2", "push 2"), ("  push\t02\r", "push 2"), ("Fresh 20 04 02 04 01", "fresh"), ("discover 0 80", "discover"),
    ("fresh 20 0402 0402 0402 0402 0401", "fresh"), ("fresh 200402040204020402ffFF", "fresh 20 0402 FFFF"),
    ("reset 1", "reset"), ("command 0 3f 4a4B", "Command 003F 4A 4B"), ("deactivate 00", "deactivate"),
    ("close 2", "command 0 5 2"), ("create", "command 0 4 01 00"), ("read 20 c0 0", "Read 20C000"), ("Run", "ev=run arg="),
    ("set 8 1", "command 0 2 01 08 01 01"), ("set 8 1 20 0102 7F 0", "command 0 2 03 080101 20020102 7F0100"),
    ("set 18 default", "command 0 2 01 18 00"), ("SET pf_bit_rate Default", "set 18 default"),
    ("get 8 20", "command 0 3 02 08 20"), ("get 0820", "get PA_BAIL_OUT pi_b_h_info"),
    ("get", "get 08091011 131418191A 20 21 28 2A 2F 68"),
    ("set 20 " + "00" * 252, "command 0 2 01 20 FC " + "00" * 252), ("set 20 " + "00" * 253, "command 0 0 " + "00" * 256),
    ("get " + "8" * 510, "command 0 0 " + "00" * 256), ("set" + " 8 1" * 85, "command 0 0 " + "00" * 256),
]


def check_no_keys(suite):
    with Worked(suite, terminal=False) as worked:
        for key in NO_KEYS:
            line = worked.press(key)
            bad = LINE.fullmatch(line) and line.startswith("ev=bad ") and len(line) <= MOST_HEARD
            suite.holds(f"no key: {key!r}", bad, line)
        for keys in SAME_KEYS:
            one, other = [(worked.press(key), worked.press("power"))[0] for key in keys]
            suite.equal(" as ".join(keys), one, other)


def check_lengths(suite):
    """Lines of any length; the last has no line feed."""
    longest = "send 0 " + "00" * ((MOST_CHARACTERS - 7) // 2)
    with Worked(suite, terminal=False) as worked:
        suite.holds("the longest line", worked.press(longest.ljust(MOST_CHARACTERS)).startswith("ev=send ans=3 "))
        for length in (MOST_CHARACTERS + 1, 10000, 1000000):
            answer = worked.press("quit".ljust(length))
            suite.equal(f"{length} characters", answer, 'ev=bad ans=3 says="the line is too long"')
        suite.holds("a message of 1,025 octets", worked.press("send 0 " + "00" * 1025).startswith("ev=send ans=3 "))
        suite.holds("a message of 1,024 octets", worked.press("send 0 " + "00" * 1024).startswith("ev=send ans=6 "))
        suite.holds("a payload of 256 octets", worked.press("command 0 0 " + "00" * 256).startswith("ev=command ans=3 "))
        suite.holds("33 parameters", worked.press("found 1 4 0 2 " + "00" * 33).startswith("ev=air ans=3 "))
        suite.holds("a read of 258 octets", worked.press("read " + "00" * 258).startswith("ev=read ans=0 drop=0 "))
        suite.holds("a read of 259 octets", worked.press("read " + "00" * 259).startswith("ev=read ans=3 "))
    suite.equal("no line feed at the end", fed([KEYS], b"card 8")[0], 'ev=card ans=0 says="8: there is nothing to move"\n')
    suite.equal("no line", fed([KEYS], b""), ("", "", 0))


# ---- any octets


def any_octets(count):
    """Lines of any octets, and keys with octets of theirs changed."""
    rng = random.Random(SEED)
    known = [key.encode() for key, _ in session() + list(lists())[:2000] if not key.startswith("quit")]
    lines = []
    while len(lines) < count:
        line = bytearray(rng.choice(known)) if rng.random() < 0.8 else bytearray(rng.randbytes(rng.randrange(60)))
        for _ in range(rng.choice([0, 0, 1, 3])):
            at = rng.randrange(len(line) + 1)
            line[at:at + rng.randrange(2)] = rng.randbytes(rng.randrange(3))
        if rng.random() < 0.002:
            line *= 4000
        line = bytes(line).replace(b"\n", b"")
        if line.split() != [b"quit"]:
            lines.append(line)
    return lines


def check_any(suite, name, program, count):
    out, complaints, status = fed(program, b"\n".join(any_octets(count)))
    # some of them end in a carriage return
    suite.equal(f"{name}, exit status", (complaints, status), (NOTE, 0))
    lines = out.splitlines()
    suite.equal(f"{name}, number of answers", len(lines), count)
    wrong = [line for line in lines if not LINE.fullmatch(line)]
    suite.equal(f"{name}, lines of another form", wrong[:3], [])


def compiled(command):
    """What a compiler complains of, and its exit status."""
    done = subprocess.run(command, capture_output=True, text=True)
    return done.stderr, done.returncode


def check_compilers(suite, folder):
    for compiler in filter(shutil.which, ("gcc", "clang")):
        for source in SOURCES:
            complaints, status = compiled([compiler, *STRICT, "-O2", "-c", source, "-o", folder / "object"])
            suite.equal(f"{compiler} {source.name}", (complaints, status), ("", 0))


def check_sanitized(suite, folder):
    program = folder / "keys"
    sanitizers = ["-g", "-fsanitize=address,undefined", "-fno-sanitize-recover=all"]
    for compiler in filter(shutil.which, ("gcc", "clang")):
        complaints, status = compiled([compiler, *STRICT, *sanitizers, *SOURCES, LIBRARY, "-o", program])
        if status == 0:
            check_any(suite, f"{compiler} with sanitizers", [program], 20000)
        elif "asan" not in complaints:
            # a compiler without its sanitizers' library is not at hand
            suite.equal(f"{compiler} with sanitizers", complaints, "")
    if shutil.which("valgrind"):
        check_any(suite, "valgrind", ["valgrind", "-q", "--error-exitcode=9", KEYS], 2000)


def main():
    suite = Suite("front")
    if sys.argv[1:] != ["--built"]:
        suite.equal("front/build", subprocess.run([ROOT / "front" / "build"]).returncode, 0)
    card = read_card()
    check_session(suite, terminal=True)
    check_session(suite, terminal=False)
    check_lists(suite, card)
    check_card(suite, card)
    check_help(suite)
    check_config(suite)
    check_no_keys(suite)
    check_lengths(suite)
    check_any(suite, "any octets", [KEYS], 50000)
    with tempfile.TemporaryDirectory() as folder:
        check_forged(suite, Path(folder))
        check_compilers(suite, Path(folder))
        check_sanitized(suite, Path(folder))
    return suite.end()


if __name__ == "__main__":
    sys.exit(main())
