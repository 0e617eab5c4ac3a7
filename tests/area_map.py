"""The map of the area as the definitions have it: numbers of crates/area/specs/Map.antt and crates/record/specs/Layout.antt,
the record's octets in the order of Writing.antt, the parameters' by the table of crates/config/specs/Table.antt, and the same
numbers in the code."""
import hashlib
import re
from collections import namedtuple

from definitions import coded, defined, split, value

RUNS, PROFILE, CONN = (f"crates/state/specs/{name}.antt" for name in ("Runs", "Profile", "Conn"))
MAP, LAYOUT = "crates/area/specs/Map.antt", "crates/record/specs/Layout.antt"
WRITING, JUDGE = "crates/record/specs/Writing.antt", "crates/record/specs/Judge.antt"
TABLE, STORED = "crates/config/specs/Table.antt", "crates/config/specs/Stored.antt"
CODE_RUNS, CODE_MAP, CODE_PLACES = "crates/state/src/runs.rt", "crates/area/src/map.rt", "crates/record/src/places.rt"
CODE_TABLE = "crates/config/src/table.rt"
FILES = (RUNS, PROFILE, CONN, MAP, LAYOUT, WRITING, JUDGE, TABLE, STORED, CODE_RUNS, CODE_MAP, CODE_PLACES, CODE_TABLE)

SIZES = ("area_size", "slot_size", "wire_slots", "wire_size", "store_slots", "store_size", "message_size", "control_size", "places")
# the parts of the area in their order, and what those are called of a place that have one for each
PARTS = {
    "down_at": None, "up_at": None, "stores_at": "store_at", "hands_at": "hand_at", "endpoint_at": None,
    "host_runs_at": "host_run_at", "controller_runs_at": "controller_run_at", "asking_at": None, "hearing_at": None,
    "spare_at": None, "record_at": None,
}
# which place a Conn ID has
PLACES = r"pick \(eqb c (\d)\) (\d)"
# octets by cases, and what they are called in one
CASES = ("pending_octets", "phase_octet", "rf_octets")
WORDS = {"gid": "GID", "oid": "OID", "aim": "aim", "id": "ID", "protocol": "protocol", "mode": "mode"}
# what is none of them, and what is some, is told as what it is: the page's cases, and those that the checksums were noted with
OPTIONS = {"pending_octets": {"None": "Nothing", "Some": "Command"}, "rf_octets": {"None": "Nothing", "Some": "Chosen"}}
# what an octet of a number, and of yes or no, is
FORMS = r"^(?:high|low|bit) .* = .*$"
# and what the octets of a parameter are
STORED_FORMS = r"^(?:is_fixed|lead|room|size_in|form_of) .* = .*$"

# each name of Layout as the distance from one field to another: where a field ends the next one starts
DISTANCES = {
    "profile_place": ("", "profile"), "host_place": ("", "host"), "hearing_place": ("", "hearing"),
    "controller_place": ("", "controller"), "asking_place": ("", "asking"), "endpoint_place": ("", "endpoint"),
    "conns_place": ("", "conns"), "down_place": ("", "down"), "up_place": ("", "up"), "record_end": ("", "end"),
    "profile_size": ("profile", "host"), "host_size": ("host", "hearing"), "control_run_size": ("hearing", "controller"),
    "controller_size": ("controller", "asking"), "hand_size": ("endpoint", "conns"), "conns_size": ("conns", "down"),
    "ring_size": ("down", "up"), "pending_part": ("host", "host.pending"), "run_part": ("asking", "asking.run"),
    "lost_part": ("asking.run.len", "asking.run.lost"), "progress_size": ("asking.run", "endpoint"),
    "rf_part": ("controller", "controller.rf"), "pairs_part": ("controller", "controller.pairs"),
    "pairs_size": ("controller.pairs", "asking"), "counts_size": ("conns.0", "conns.1"),
    "host_side_size": ("conns.0.host", "conns.0.controller"), "controller_side_size": ("conns.0.controller", "conns.1"),
    "hand_part": ("conns.0.host", "conns.0.host.hand"), "host_run_part": ("conns.0.host", "conns.0.host.run"),
    "store_part": ("conns.0.controller", "conns.0.controller.store"),
    "controller_run_part": ("conns.0.controller", "conns.0.controller.run"),
    "front_size": ("profile", "controller"), "middle_size": ("asking", "conns"), "wires_size": ("down", "end"),
}


# ---- the record's octets, in the order in which they are written

def as_noted(said):
    """In the spelling that the definitions had when the first layout's checksum was noted: a checksum that stays says that
    the map is the same one."""
    said = re.sub(r"(\+ )?\b([a-z])\.(\w+)", lambda m: f"{m[1]}{m[2]} .{m[3]}" if m[1] else f"({m[2]} .{m[3]})", said)
    return re.sub(r"_([a-z])", lambda m: m[1].upper(), said.replace("get_or", "getD"))


# an octet's field, and what it has of it: all, the high or low octet of a number, yes or no, or its place among those of a case
Leaf = namedtuple("Leaf", ("field", "form"))


class Written:
    """The functions of Writing.antt that give octets, by their clauses."""

    def __init__(self, text):
        self.clauses = {}
        for name, left, right in re.findall(r"^(\w+) (.+?) =\s(.*(?:\n {4}.*)*)", re.sub("--.*", "", text), re.M):
            self.clauses.setdefault(name, []).append((left, right))

    def field(self, words, known):
        """The field that words speak of: `p.two.payload`, or a place of a list, by `get_or`."""
        place = re.fullmatch(r"\(get_or (\w+) (\w+) \w+\)((?:\.\w+)*)", words)
        if place:
            return f"{known[place[1]]}.{known[place[2]]}{place[3]}"
        first, *rest = words.split(".")
        return ".".join(filter(None, [known.get(first, first), *rest]))

    def octets(self, name, arguments):
        """The leaves of a function."""
        left, right = self.clauses[name][0]
        if len(self.clauses[name]) > 1:
            return [Leaf(arguments[0], f"case {i}") for i, part in enumerate(split(right, "∷")) if part != "[]"]
        return list(self.parts(right, dict(zip(left.split(), arguments))))

    def parts(self, text, known):
        for part in split(text, "∷", "++"):
            applied = re.fullmatch(r"(\w+) ((?:\([^()]*\)|[\w.]+)(?: \w+)*)", part)
            if re.fullmatch(r"\(.*\)", part, re.S):
                yield from self.parts(part[1:-1], known)
            elif applied and applied[1] in ("high", "low", "bit"):
                yield Leaf(self.field(applied[2], known), applied[1])
            elif applied and applied[1] in self.clauses:
                words = re.findall(r"\([^()]*\)|[\w.]+", applied[2])
                yield from self.octets(applied[1], [self.field(word, known) for word in words])
            elif part != "[]":
                yield Leaf(self.field(part, known), "octet")

    def cases(self, name):
        """Of each case its name and its octets, in numbers and words."""
        for left, right in self.clauses[name]:
            told = OPTIONS.get(name, {})
            first, *rest = (told.get(case, case) for case in re.findall(r"\b[A-Z]\w+", left))
            named = re.sub(r"(?<=[a-z0-9])(?=[A-Z])", "_", first).upper()
            octets = [WORDS.get(part.split(".")[-1], part) for part in split(right, "∷") if part != "[]"]
            yield ", ".join([named, *map(str.lower, rest)]), octets


# ---- the configuration parameters, in the order of the table

# a row of the definitions, and one of the code: ID, place, least and greatest length, default, values
ROW = r"row (\w+) (\d+) (\d+) (\d+) (\w+) (\(Range \w+ \w+\)|BitRates)"
CODE_ROW = r",\s+".join((
    r"Row \{\s+id: (\w+)", r"at: (\d+)", r"least: (\d+)", r"most: (\d+)", r"default: (\w+)", r"values: Values::([\w(), ]+)", r"\}",
))
# the bit rates that are not reserved
RATES = r"^allowed_by BitRates x = leb x (\w+) \|\| eqb x (\w+) \|\| \(leb (\w+) x && leb x (\w+)\)$"

# the ranges are those of the octets that a value may have
Parameter = namedtuple("Parameter", ("name", "id", "at", "least", "most", "default", "ranges"))


def row(cells):
    """A row as numbers, with the word for its values among them."""
    words = re.findall(r"\w+", " ".join(cells))
    return [int(word, 0) if word[0].isdigit() else word for word in words]


def parameters(text):
    """The rows of the definitions, named by the words behind them."""
    rates = re.search(RATES, text, re.M)
    if not rates:
        raise LookupError("the bit rates are not defined")
    last, alone, low, high = (int(number, 0) for number in rates.groups())
    for *cells, name in re.findall(rf"^    (?:∷ )?{ROW} +-- (\w+)$", text, re.M):
        *numbers, values = row(cells)[:6]
        ranges = [(0, last), (alone, alone), (low, high)] if values == "BitRates" else [tuple(row(cells)[6:])]
        yield Parameter(name, *numbers, ranges)


class Area:
    """The map: the numbers by their names, the record's octets, the parameters behind them, and the connections by place."""

    def __init__(self, texts):
        self.names = defined(*(texts[path] for path in (RUNS, PROFILE, MAP, TABLE, LAYOUT)))
        self.names["config_end"] = self.names["config_at"] + self.names["config_size"]
        self.parameters = list(parameters(texts[TABLE]))
        self.written, self.forms = Written(texts[WRITING]), re.findall(FORMS, texts[LAYOUT], re.M)
        self.forms += re.findall(STORED_FORMS, texts[STORED], re.M)
        leaves = [Leaf(leaf.field.removeprefix("ends."), leaf.form) for leaf in self.written.octets("encode_of", [""])]
        self.leaves = [*leaves, Leaf("end", "")]
        by_place = {int(place): conn for conn, place in re.findall(PLACES, texts[CONN])}
        self.conns = [f"connection {by_place[place]}" for place in range(self.names["places"])]

    def place(self, field):
        """Where a field starts in the record."""
        for i, leaf in enumerate(self.leaves):
            if f"{leaf.field}.".startswith(field and f"{field}."):
                return i
        raise LookupError(f"no {field} is written")

    def at(self, field):
        """And in the area."""
        return self.names["record_at"] + self.place(field)

    def fields(self, within="", apart=()):
        """Fields with their lengths, in order; each part that is named apart is one of them."""
        found = {}
        for leaf in self.leaves[:-1]:
            if leaf.field.startswith(within):
                name = next((part for part in apart if leaf.field.startswith(part)), leaf.field)
                found[name] = found.get(name, 0) + 1
        return found

    def config(self):
        """The octets of the parameters, by place: where they start in the area, how many they are, the parameter, and whether
        they are its length, which stands before a value whose length varies."""
        for parameter in sorted(self.parameters, key=lambda parameter: parameter.at):
            start = self.names["config_at"] + parameter.at
            if parameter.least != parameter.most:
                yield start, 1, parameter, True
                start += 1
            yield start, parameter.most, parameter, False

    def checksum(self):
        """Of all that the octets of an area mean."""
        numbers = [f"{as_noted(name)} {self.names[name]}" for name in (*SIZES, *PARTS)]
        octets = [f"{self.names['record_at'] + i} {leaf.field} {leaf.form}" for i, leaf in enumerate(self.leaves)]
        octets += [f"{at} {n} {p.id:02X} {p.name} {'length' if length else 'value'}" for at, n, p, length in self.config()]
        cases = [f"{name} {' '.join(octets)}" for case in CASES for name, octets in self.written.cases(case)]
        forms = map(as_noted, self.forms)
        return hashlib.sha256("\n".join([*numbers, *octets, *cases, *forms, *self.conns]).encode()).hexdigest()[:16]


# ---- what is wrong with the definitions, and with the code beside them


def sums_differ(area, text):
    """Equations between numbers that stand in the definitions."""
    for left, right in re.findall(r"^(?:  )?pub [\w-]+ : ([\w+ ]+) ≡ ([\w+ ]+)$", text, re.M):
        if value(left, area.names) != value(right, area.names):
            yield f"{left} is not {right}"


def distances_differ(area):
    """Places and sizes of Layout that are not those of the octets written."""
    for name, (start, end) in DISTANCES.items():
        found = area.place(end) - area.place(start)
        if found != area.names[name]:
            yield f"{name} is {area.names[name]}, and {end} is written {found} octets after {start or 'the start'}"
    pairs = len(area.fields("controller.pairs.list")) // 2
    for name, number in {"selected_part": area.names["rf_part"] + 1, "pairs_room": pairs}.items():
        if area.names[name] != number:
            yield f"{name} is {area.names[name]}, and by what is written {number}"


def parameters_differ(area, texts):
    """A table that is not as long as it says, octets that do not follow one another, and rows that the code has otherwise."""
    if len(area.parameters) != area.names["row_count"]:
        yield f"row_count is {area.names['row_count']}, and there are {len(area.parameters)} rows"
    starts = [start for start, *_ in area.config()] + [area.names["config_end"]]
    for (start, length, parameter, _), following in zip(area.config(), starts[1:]):
        if start + length != following:
            yield f"{parameter.name} ends at {start + length}, and {following} is next"
    forms = {TABLE: ROW, CODE_TABLE: CODE_ROW}
    rows, of_code = ([row(cells) for cells in re.findall(form, texts[path])] for path, form in forms.items())
    if rows != of_code:
        yield "the code's rows are not those of the definitions"


# constants of the code that no definition has by itself: a packet's header, which SLOT is made with
UNDEFINED = {"HEADER"}
# names that the code has otherwise
CODED = {
    "AREA": "area_size", "PAYLOAD": "payload_size", "SLOT": "slot_size", "WIRE": "wire_slots", "STORE": "store_slots",
    "MESSAGE": "message_size", "CONTROL": "control_size", "END": "record_end", "ROWS": "row_count",
}


def definition_of(constant, names):
    """The definition of a constant, by its name: a part of the record is without its place in the code."""
    name = constant.lower()
    return CODED.get(constant) or (name if name in names else name + "_place")


def code_differs(area, found):
    """Constants that are not as they are defined."""
    for constant, number in found.items():
        if constant in UNDEFINED:
            continue
        of_place = re.fullmatch(r"COUNTS_(\d)", constant)
        name = "counts_part" if of_place else definition_of(constant, area.names)
        due = area.names.get(name)
        if of_place:
            number, due = [number], [due(int(of_place[1]))]
        elif callable(number):
            number, due = [[by_place(place) for place in range(area.names["places"])] for by_place in (number, due)]
        if number != due:
            yield f"{constant} is {number}, {name} is {due}"


def code_problems(area, texts):
    runs, table = coded(texts[CODE_RUNS], {}), coded(texts[CODE_TABLE], {})
    code_map = coded(texts[CODE_MAP], runs)
    places = coded(texts[CODE_PLACES], code_map | table)
    found = {CODE_RUNS: runs, CODE_MAP: code_map, CODE_TABLE: table, CODE_PLACES: places}
    return {path: list(code_differs(area, constants)) for path, constants in found.items()}
