"""The RF octets, RF states and air events of docs/REFERENCE.md, held to the definitions and played."""
import re

from reference_bench import BEFORE, STATES, answer, command, event, packets, played
from reference_page import AIR, HEADER, RADIO, WRITING, differ, names, table

# ---- octets of the RF messages


# the first three modes have no names among the definitions
UNNAMED = [["00", "poll NFC-A"], ["01", "poll NFC-B"], ["02", "poll NFC-F"]]
MODES = {
    "poll_active": "poll active",
    "poll_v": "poll NFC-V",
    "listen_a": "listen NFC-A",
    "listen_b": "listen NFC-B",
    "listen_f": "listen NFC-F",
    "listen_active": "listen active",
}
DEACTIVATIONS = {"to_idle": "to idle", "to_sleep": "to sleep", "to_sleep_af": "to sleep AF", "to_discovery": "to discovery"}
REASONS = {"host_request": "the host asked", "endpoint_request": "the endpoint asked", "link_loss": "the link was lost"}


def rf_octets_differ(texts):
    modes, numbers = table(texts, "technology and mode"), names(texts)
    yield from differ(modes, UNNAMED + [[f"{numbers[name]:02X}", words] for name, words in MODES.items()], "modes")
    taken = [f"{n:02X}" for n in range(256) if answer("IDLE", f"21 03 03 01 {n:02X} 01") == ["41 03 01 00"]]
    yield from differ([row[0] for row in modes], taken, "modes")
    for head, words in (("type of deactivation", DEACTIVATIONS), ("reason of deactivation", REASONS)):
        yield from differ(table(texts, head), [[f"{numbers[name]:02X}", said] for name, said in words.items()])
    yield from differ({*MODES}, {*names(texts, "RF technology")}, "modes")
    yield from differ({*DEACTIVATIONS, *REASONS}, {*names(texts, "deactivation")}, "types and reasons")


# ---- RF states and air events

PROBES = ["0109040002", "0109040000", "02010400", "03010480", "04", "05", "06", "07", "08"]


def state_shown(lines):
    """What tells a state from the others: the events that it takes, and how it answers a select and a deactivate."""
    probes = [[f"ev=air arg={probe}"] for probe in PROBES] + [command(arg)[:2] for arg in ("010600", "0104010401")]
    return [(last["ans"], last["pkt"]) for probe in probes for last in played(*lines, *probe)[-1:]]


HAPPENS = {
    "discover command, OK": command("01030200018001"),
    "select command, OK": command("0104010401"),
    "air 2": event("02010400"),
    "air 3": event("03010480"),
}


def happens(what, before):
    """The lines for what happens in a row of the table of states, in each way that it stands for."""
    found = re.fullmatch(r"deactivate command, (?:any type|type (\d))", what)
    if found:
        active = before in ("POLL_ACTIVE", "LISTEN_ACTIVE")
        return [command(f"0106{n:02X}", 2 if active else 1) for n in ([int(found[1])] if found[1] else [0, 1, 2, 3, 4, 255])]
    found = re.fullmatch(r"air (?:1, type (\d)|([4-7]))", what)
    if not found:
        return [HAPPENS[what]] if what in HAPPENS else []
    return [event(f"01020400{int(found[1]):02X}" if found[1] else f"0{found[2]}")]


def moves_differ(texts):
    """Each row is played, and leaves a bench that behaves as one in the state that it names. What no row has changes nothing."""
    shown = {state: state_shown(BEFORE[state]) for state in STATES}
    yield from differ(len({str(show) for show in shown.values()}), len(STATES), "states that can be told apart")
    rows = table(texts, "from")
    for before, what, after in rows:
        ways = happens(what, before) if before in shown and after in shown else []
        for way in ways:
            if before == after == "W4_ALL_DISCOVERIES" and played(*BEFORE[before], *way)[-2]["ans"] != "0":
                yield f"{before}, {what} is not taken"
            if state_shown(BEFORE[before] + way) != shown[after]:
                yield f"{before}, {what}, does not lead to {after}"
        if not ways:
            yield f"{before}, {what}, {after}: no such row"
    yield from differ(sorted(set(map(tuple, rows))), sorted(map(tuple, rows)), "rows")
    yield from unlisted(rows, shown)


def unlisted(rows, shown):
    """What is taken in a state, changes it and has no row."""
    listed = {(before, what) for before, what, _ in rows}
    kinds = [*HAPPENS, *(f"air 1, type {n}" for n in range(3)), *(f"air {n}" for n in range(4, 8))]
    kinds += [f"deactivate command, type {n}" for n in range(5)]
    for before in STATES:
        for what in kinds:
            any_type = re.sub(r"command, type \d", "command, any type", what)
            base = before.removesuffix(" with a selection")
            known = {(before, what), (before, any_type)} | ({(base, what), (base, any_type)} if "command" in what else set())
            if not known & listed and state_shown(BEFORE[before] + happens(what, before)[0]) != shown[before]:
                yield f"{before}, {what}, has no row"


def defined_events(texts, state):
    """The kinds of events that a state takes, by the definitions; in W4_HOST_SELECT those that it takes with a selection."""
    def holds(name):
        return re.search(rf"^{name} \(?{state}\b[^=]*= true$", texts[RADIO], re.M) is not None

    for kind, rule in enumerate(["found_by", "poll_by", "listen_by", "failed_by"], 1):
        said = re.findall(rf"^{rule} \(?{state}\b[^=]*= (.*)$", texts[AIR], re.M)
        if any(rest != "None" for rest in said):
            yield kind
    for kind, name in enumerate(["Sleeps", "LinkLost", "Releases", "Endpoint"], 5):
        tests = re.search(rf"^aired_by rf ps \(Some {name}\) = pick \((.*?)\) \(Some \(?[ES]", texts[AIR], re.M)[1]
        if any(holds(test.split()[0]) for test in tests.split(" || ")):
            yield kind


def takes(state, way):
    """Whether an event is taken in a state of the page."""
    return state in BEFORE and played(*BEFORE[state], *way)[-2]["ans"] == "0"


def states_differ(texts):
    """Numbers and names as the record has them, and the events that each takes: by the definitions, and played."""
    found = re.findall(r"^rf_octets \(?(\w+).*? = (\d) ∷", texts[WRITING], re.M)
    due = {number: (re.sub(r"(?<!^)(?=[A-Z])", "_", name).upper(), name) for name, number in found}
    rows = table(texts, "number", "state")
    yield from differ([row[:2] for row in rows], [[number, name] for number, (name, _) in due.items()])
    for number, name, _, events in rows:
        kinds = [int(kind) for kind in re.findall(r"\d", re.sub(r"with type \d", "", events))]
        if number in due:
            yield from differ(kinds, list(defined_events(texts, due[number][1])), f"{name} takes")
        chosen = name + " with a selection" if "with a selection" in events else name
        taken = [n for n in range(1, 9) if any(takes(chosen, way) for way in every_way(n))]
        yield from differ(kinds, taken, f"{name} takes, played,")
        types = re.findall(r"with type (\d)", events) or (["0", "1", "2"] if 1 in kinds else [])
        yield from differ(types, [str(n) for n in range(3) if takes(name, event(f"01020400{n:02X}"))], f"{name}, types")


def every_way(kind):
    """An event of each kind, which an endpoint that is known could bring."""
    args = {1: ["0102040002", "0102040000"], 2: ["02010400"], 3: ["03010480"]}.get(kind, [f"0{kind}"])
    return [event(arg) for arg in args]


# where an event of each kind is taken, and its octets
EVENTS = {
    "1": ("DISCOVERY", "0101040002"),
    "2": ("DISCOVERY", "02010400"),
    "3": ("DISCOVERY", "03010480"),
    "4": ("W4_HOST_SELECT with a selection", "04"),
    "5": ("LISTEN_ACTIVE", "05"),
    "6": ("LISTEN_ACTIVE", "06"),
    "7": ("LISTEN_ACTIVE", "07"),
    "8": ("LISTEN_ACTIVE", "0801"),
}


def events_differ(texts):
    rows = table(texts, "air event")
    kinds = dict(re.findall(r"^ \*   (\d) ([a-z ]+):", texts[HEADER], re.M)) | {"8": "endpoint message"}
    for number, words in re.findall(r"(\d) ((?:target|endpoint|link) \w+)[,:]", texts[HEADER]):
        kinds.setdefault(number, words)
    yield from differ([row[:2] for row in rows], [[n, kinds.get(n)] for n in map(str, range(1, 9))], "kinds")
    first = {row[1]: row[0] for row in table(texts, "octets 0 and 1")}
    for number, _, up in rows:
        before, arg = EVENTS.get(number, ("cold", "00"))
        name, _, rest = up.partition(", ")
        put = packets(played(*BEFORE[before], f"ev=air arg={arg}")[-1]["pkt"])
        said = [first[name]] if name in first else []
        yield from differ([packet[:5] for packet in put], said, f"air {number} puts")
        if rest:
            yield from differ([packet[9:] for packet in put], [rest], f"air {number} puts")
