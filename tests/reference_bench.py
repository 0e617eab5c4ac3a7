"""The bench, played for docs/REFERENCE.md: papers that lead to what a row of the page starts from, and what is answered then."""
import subprocess
import sys
from functools import lru_cache

from programs import ROOT, built

sys.path.insert(0, str(ROOT / "marking"))
import fields as marking  # noqa: E402


@lru_cache(maxsize=None)
def played(*lines):
    """The answers to a paper, as fields."""
    done = subprocess.run([built("paper")], input="\n".join(lines).encode(), stdout=subprocess.PIPE, check=True)
    return [marking.parsed(line) for line in done.stdout.decode().splitlines()]


def command(gid_oid_payload, reads=1):
    return [f"ev=command arg={gid_oid_payload}", "ev=down arg="] + ["ev=up arg="] * reads


def event(arg):
    return [f"ev=air arg={arg}", "ev=up arg="]


RESET, INIT, CREATE = command("000001", 2), command("00010000"), command("00040100")
IDLE = RESET + INIT
DISCOVERY = IDLE + command("01030200018001")
ALL = DISCOVERY + event("0101040002")
SELECT = ALL + event("0102040000")
# papers that lead to what a row starts from
BEFORE = {
    "cold": [],
    "reset": RESET,
    "IDLE": IDLE,
    "15 octets in 20": IDLE + command("000201200F" + 15 * "AA"),
    "one loopback": IDLE + CREATE,
    "four loopbacks": IDLE + 4 * CREATE,
    "DISCOVERY": DISCOVERY,
    "W4_ALL_DISCOVERIES": ALL,
    "W4_HOST_SELECT": SELECT,
    "W4_HOST_SELECT with a selection": SELECT + command("0104010401"),
    "POLL_ACTIVE": DISCOVERY + event("02010400"),
    "LISTEN_ACTIVE": DISCOVERY + event("03010480"),
    "LISTEN_ACTIVE with mode 81": DISCOVERY + event("03010481"),
    "LISTEN_ACTIVE with mode 82": DISCOVERY + event("03010482"),
    "LISTEN_SLEEP": DISCOVERY + event("03010480") + event("05"),
}
STATES = [name for name in BEFORE if name.isupper() or name.endswith("selection")]


def shown(lines, *ids):
    """The values of parameters, as a get shows them after some lines; its status where that is not OK."""
    asked = bytes(ids).hex().upper()
    payload = bytes.fromhex(played(*lines, f"ev=command arg=0003{len(ids):02X}{asked}", "ev=down arg=")[-1]["pkt"])[3:]
    found, left = {}, payload[2:]
    while left and payload[0] == 0:
        found[left[0]], left = left[2 : 2 + left[1]].hex().upper(), left[2 + left[1] :]
    return found or f"{payload[0]:02X}"


def packets(value):
    """The packets that a field has, each as pairs of digits."""
    left, found = bytes.fromhex(value), []
    while left:
        found.append(left[: 3 + left[2]].hex(" ").upper())
        left = left[3 + left[2] :]
    return found


def answer(before, packet):
    """What goes up for a command's packet."""
    given = bytes.fromhex(packet)
    if len(given) != 3 + given[2] or given[0] >> 4 != 2:
        return ["no command"]
    argument = bytes([given[0] & 15, given[1], *given[3:]]).hex().upper()
    sent, taken = played(*BEFORE[before], f"ev=command arg={argument}", "ev=down arg=")[-2:]
    return packets(taken["pkt"]) if packets(sent["pkt"]) == [packet] else [f"sent {sent}"]
