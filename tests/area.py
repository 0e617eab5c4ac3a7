#!/usr/bin/env python3
"""docs/AREA.md, the map of the area and of the record in absolute octets: every number in its tables is computed here from
the definitions (area_map.py), and the code and the header have the same numbers.

    area.py             compares the page, the definitions and the code
    area.py --write     writes the numbers of today into the page's tables

The page ends with the number of the layout, NCI_LAYOUT of the header, and a checksum of the map: a map that changes needs
another number. Each number of the page, of the definitions and of the code, made one more, has to be noticed."""
import re
import sys

from area_map import (
    CODE_MAP, CODE_PLACES, CODE_RUNS, CODE_TABLE, CONN, FILES, JUDGE, LAYOUT, MAP, PARTS, PLACES, PROFILE, RUNS, SIZES, STORED,
    TABLE, WRITING, Area, code_problems, distances_differ, parameters_differ, sums_differ,
)
from definitions import definition, split, value
from programs import ROOT, Suite

PAGE = "docs/AREA.md"
HEADER = "include/nci_bench.h"

# sizes that the header has too
HEADER_SIZES = {
    "NCI_AREA_SIZE": "area_size", "NCI_BUFFER_SIZE": "message_size", "NCI_MESSAGE_MAX": "message_size",
    "NCI_COMMAND_MAX": "control_size", "NCI_PACKET_MAX": "slot_size", "NCI_LONG_PROFILE_SIZE": "profile_size",
    "NCI_WIRE_SLOTS": "wire_slots", "NCI_STORE_SLOTS": "store_slots",
}

# parts of the record that have a table of their own
APART = ("host.pending", "controller.rf", "controller.pairs.list", "conns")
# most of an octet
OCTET = 255
# what the definitions say of records that can be: a head and a count, a message in hand, yes or no
RING = "ring_ok slots k = leb k.count slots && ltb k.head slots"
HAND = "hand_ok h = leb h.len message_size && leb h.at h.len"
FLAG = "flag_ok s at = leb (get_or s at 0) 1"

# the tests of the record's numbers
JUDGED = ("record_ok", "ends_ok", "hand_ok", "host_side_ok", "controller_side_ok")

# of fields, by the end of their names: the numbers that their values are told with, and the definition that they are from.
# A field that is not here is not judged, or has its cases in a table
VALUES = {
    "profile.control": (("least_size", OCTET), PROFILE, "control_ok n = leb least_size n && leb n 255"),
    "profile.*.payload": ((1, OCTET), PROFILE, "payload_ok n = leb 1 n && leb n 255"),
    "profile.*.credits": ((1, 8, OCTET), PROFILE, "credits_ok n = (leb 1 n && leb n 8) || eqb n 255"),
    "host.size": (("least_size", OCTET), JUDGE, "leb least_size e.host.size"),
    "hearing.run.len": ((0, "control_size"), JUDGE, "leb e.hearing.run.len control_size"),
    "asking.run.len": ((0, "control_size"), JUDGE, "leb e.asking.run.len control_size"),
    "controller.given": ((0, 2, 5), JUDGE, "given_ok id = eqb id 0 || (leb 2 id && leb id 5)"),
    "controller.pairs.count": ((0, "pairs_room"), JUDGE, "leb e.controller.pairs.count pairs_room"),
    "host.payload": ((1, OCTET), JUDGE, "(not h.opened || leb 1 h.payload)"),
    "host.held": ((0,), JUDGE, "leb h.held h.grant"),
    "controller.owed": ((0,), JUDGE, "leb k.owed k.grant"),
    "host.run.len": ((0, "message_size"), JUDGE, "leb h.run.len message_size"),
    "controller.run.len": ((0, "message_size"), JUDGE, "leb k.run.len message_size"),
    "store.head": ((0, "store_slots - 1"), JUDGE, "ring_ok store_slots k.store"),
    "store.count": ((0, "store_slots"), JUDGE, RING),
    "down.head": ((0, "wire_slots - 1"), JUDGE, "ring_ok wire_slots r.down"),
    "up.head": ((0, "wire_slots - 1"), JUDGE, "ring_ok wire_slots r.up"),
    "*.count": ((0, "wire_slots"), JUDGE, RING),
    "endpoint.len": ((0, "message_size"), JUDGE, "hand_ok e.endpoint"),
    "hand.len": ((0, "message_size"), JUDGE, "hand_ok h.hand"),
    "*.at": ((0,), JUDGE, HAND),
    "*.full": ((0, 1), JUDGE, FLAG),
    "*.lost": ((0, 1), JUDGE, FLAG),
    "*.opened": ((0, 1), JUDGE, FLAG),
    # cases that can be are those that the tables have
    "controller.phase": (None, JUDGE, "leb (get_or s controller_place 0) 2"),
    "controller.rf": (None, JUDGE, "rf_known tag selected = leb tag 6 && (not (eqb tag 3) || leb selected 1)"),
    "host.pending": (None, JUDGE, "flag_ok s (host_place + pending_part)"),
    # the parameters have a table of their own
    "config_at": (None, JUDGE, "parameters_ok (config_octets area)"),
}


# ---- the page's tables: what each cell is to be. A text is the cell; numbers are those of the cell, in their order, among
# words; None is a cell of words alone


def values_of(area, field):
    """The numbers for a field's values."""
    for name, (numbers, *_) in VALUES.items():
        if re.search(rf"(?:^|\.){name.replace('.', '[.]').replace('*', '[a-z]+')}$", field):
            return [value(str(n), area.names) for n in numbers] if numbers else None
    return None


def both(octet):
    """A place as it stands in the page: in decimal, and as in a dump."""
    return f"{octet} 0x{octet:04X}"


def area_rows(area):
    starts = [area.names[name] for name in PARTS]
    for name, start, end in zip(PARTS, starts, [*starts[1:], area.names["area_size"]]):
        yield [both(start), str(end - start), f"`{name}`", None]


def slot_rows(area, slots, starts):
    """The slots of rings that start there."""
    for slot in range(slots):
        yield [str(slot), *(both(start + slot * area.names["slot_size"]) for start in starts)]


def record_rows(area):
    for field, length in area.fields(apart=APART).items():
        yield [both(area.at(field)), str(length), f"`{field}`", None, values_of(area, field)]
    config, end = area.names["config_at"], area.names["config_end"]
    yield [both(config), str(end - config), "`config_at`", None, None]
    yield [both(end), str(area.names["area_size"] - end), "", None, None]


def octets_said(ranges):
    """The octets that a value may have."""
    for low, high in ranges:
        if (low, high) == (0, OCTET):
            yield "any"
        else:
            between = "or" if high - low == 1 else "to"
            yield f"0x{low:02X}" if low == high else f"0x{low:02X} {between} 0x{high:02X}"


def config_rows(area):
    for start, length, parameter, is_length in area.config():
        place = [both(start), str(length), f"0x{parameter.id:02X}"]
        if is_length:
            yield [*place, f"length of {parameter.name}", f"{parameter.least} to {parameter.most}", str(parameter.least)]
        elif parameter.least == parameter.most:
            yield [*place, parameter.name, ", ".join(octets_said(parameter.ranges)), f"0x{parameter.default:02X}"]
        else:
            yield [*place, parameter.name, ", ".join(octets_said(parameter.ranges)) + "; 0 past its length", "none"]


def conn_rows(area):
    for field, length in area.fields("conns.0.").items():
        own = field.removeprefix("conns.0.")
        octets = [both(area.at(f"conns.{place}.{own}")) for place in range(len(area.conns))]
        yield [f"`{own}`", str(length), *octets, None, values_of(area, own)]


def pair_rows(area):
    for i in range(area.names["pairs_room"]):
        yield [str(i), *(both(area.at(f"controller.pairs.list.{i}.{part}")) for part in ("id", "protocol"))]


def case_rows(area, case, field):
    """The heading has the octets, since they are few."""
    rows = list(area.written.cases(case))
    yield [None, *(both(area.at(field) + i) for i in range(len(rows[0][1])))]
    yield from ([name, *octets] for name, octets in rows)


def tables(area):
    """Of each table its rows, the heading among them, by the title over it."""
    names, conns, places = area.names, area.conns, range(area.names["places"])
    by_place = [names[name] for name in PARTS.values() if name]
    stores = [names["store_at"](place) for place in places]
    return {
        "Sizes": [[None] * 3, *([f"`{name}`", str(names[name]), None] for name in SIZES)],
        "The area": [[None] * 4, *area_rows(area)],
        "Slots of the wires": [[None] * 3, *slot_rows(area, names["wire_slots"], [names["down_at"], names["up_at"]])],
        "Parts by connection": [[None] * 5, *([conns[p], *(both(part(p)) for part in by_place)] for p in places)],
        "Slots of the stores": [[None, *conns], *slot_rows(area, names["store_slots"], stores)],
        "The record": [[None] * 5, *record_rows(area)],
        "The configuration": [[None] * 6, *config_rows(area)],
        "The unanswered command": list(case_rows(area, "pending_octets", "host.pending")),
        "The controller's phase": list(case_rows(area, "phase_octet", "controller.phase")),
        "The RF state": list(case_rows(area, "rf_octets", "controller.rf")),
        "The pairs found": [[None] * 3, *pair_rows(area)],
        "A connection in the record": [[None, None, *conns, None, None], *conn_rows(area)],
    }


# ---- the page


def sections(page):
    """The rows of each table, by the title over it: their lines in the page, and their cells."""
    title, found = None, {}
    for number, line in enumerate(page.split("\n")):
        if line.startswith("#"):
            title = line.lstrip("# ")
        elif line.startswith("|") and not line.startswith("|-"):
            cells = [cell.strip() for cell in line.removeprefix("|").removesuffix("|").split("|")]
            found.setdefault(title, []).append((number, cells))
    return found


def fits(cell, due):
    if isinstance(due, str):
        return cell == due
    return [int(n) for n in re.findall(r"\d+", cell)] == (due or [])


def rows_differ(rows, due):
    if len(rows) != len(due):
        yield f"{len(rows)} rows, expected {len(due)}"
    for (_, cells), expected in zip(rows, due):
        if len(cells) != len(expected) or not all(map(fits, cells, expected)):
            yield f"{' | '.join(cells)}\n    expected {' | '.join('..' if c is None else str(c) for c in expected)}"


def page_problems(page, due):
    """Of each table what is wrong."""
    found = sections(page)
    wrong = {f"{PAGE}, {title}": list(rows_differ(found.get(title, []), rows)) for title, rows in due.items()}
    return wrong | {f"{PAGE}, all tables": [f"{title} is not computed" for title in found.keys() - due.keys()]}


def filled(cell, due):
    """A cell with the numbers of today."""
    left = iter(due or [])
    return due if isinstance(due, str) else re.sub(r"\d+", lambda n: str(next(left, n[0])), cell)


def rewritten(texts):
    """The page with the numbers of today."""
    lines, found = texts[PAGE].split("\n"), sections(texts[PAGE])
    for title, due in tables(Area(texts)).items():
        for (number, cells), expected in zip(found.get(title, []), due):
            lines[number] = f"| {' | '.join(map(filled, cells, expected))} |"
    return "\n".join(lines)


# ---- the layout's number


def layout_differs(texts, area):
    """The page's last lines: a checksum for each number that there was, the header's last."""
    noted = re.findall(r"^- layout (\d+): ([0-9a-f]{16})$", texts[PAGE], re.M)
    numbers, sums = [int(n) for n, _ in noted], [checksum for _, checksum in noted]
    number = re.search(r"^#define NCI_LAYOUT (\d+)u\b", texts[HEADER], re.M)
    if not number or numbers != list(range(1, int(number[1]) + 1)):
        yield f"the page has layouts {numbers}, NCI_LAYOUT of the header is {number and number[1]}"
    elif area.checksum() != sums[-1]:
        yield f"the map is not that of layout {number[1]}: raise NCI_LAYOUT, and note {area.checksum()} with it"
    elif len(set(sums)) < len(sums):
        yield "two layouts have one checksum"


def sizes_differ(header, area):
    """Sizes of the header that are not as they are defined."""
    found = dict(re.findall(r"^#define (NCI_\w+) (\d+)u", header, re.M))
    for name, size in HEADER_SIZES.items():
        if found.get(name) != str(area.names[size]):
            yield f"{name} is {found.get(name)}, {size} is {area.names[size]}"


def unsaid(texts):
    """Definitions that values are from and that say something else, and tests of the record that no value is from."""
    for name, (_, path, words) in VALUES.items():
        if words not in re.sub(r"\s+", " ", texts[path]):
            yield f"{name}: {path} does not say {words}"
    known = {part for _, _, words in VALUES.values() for part in split(words.split(" = ")[-1], "&&")}
    for name in JUDGED:
        for part in split(definition(texts[JUDGE], name), "&&"):
            if part not in known and part.split()[0] not in (*JUDGED, "profile_ok", "given_ok", "conns_ok"):
                yield f"{name} tests {part}, and the page has no values from it"


# ---- all of it


def problems(texts):
    """Of each test what is wrong; definitions that cannot be read are one."""
    try:
        return compared(texts, Area(texts))
    except (LookupError, NameError, TypeError, SyntaxError) as fault:
        return {"the definitions": [f"cannot be read: {fault!r}"]}


def compared(texts, area):
    return {
        MAP: list(sums_differ(area, texts[MAP])),
        LAYOUT: list(sums_differ(area, texts[LAYOUT])),
        WRITING: list(distances_differ(area)),
        TABLE: list(parameters_differ(area, texts)),
        **code_problems(area, texts),
        HEADER: list(sizes_differ(texts[HEADER], area)),
        "where values are from": list(unsaid(texts)),
        **page_problems(texts[PAGE], tables(area)),
        "the layout's number": list(layout_differs(texts, area)),
    }


# ---- that a change is noticed

# of each file, the lines whose numbers count
COUNTED = {
    PAGE: r"^\|.*|^- layout .*",
    HEADER: rf"^#define (?:NCI_LAYOUT|{'|'.join(HEADER_SIZES)}) \d+",
    RUNS: r"^\w+_limit = .*",
    PROFILE: r"^(?:least_size|payload_ok|credits_ok|control_ok) .*",
    CONN: PLACES,
    MAP: r"^(?!--).*[=≡].*",
    LAYOUT: r"^(?!--).*[=≡].*",
    WRITING: r"^(?!--|use|no_pair).*",
    JUDGE: r"^(?:given_ok|flag_ok|rf_known) .*|^    && leb \(get_or s controller_place 0\) 2$",
    CODE_RUNS: r"^pub const .*",
    CODE_MAP: r"^(?:pub )?const .*",
    CODE_PLACES: r"^(?:pub )?const .*",
    TABLE: r"^(?:row_count|config_size|no_row|allowed_by BitRates) .*|^    (?:∷ )?row .*",
    STORED: r"^(?:lead|size_in) .*",
    CODE_TABLE: r"^pub const .*|^        (?:id|at|least|most|default|values): .*",
}


def noticed(texts, due):
    """Whether something is wrong; what is due in the page's tables may be known."""
    return any((page_problems(texts[PAGE], due) if due else problems(texts)).values())


def unnoticed(texts, path):
    """Numbers of a file that may be one more."""
    text, due = texts[path], tables(Area(texts)) if path == PAGE else None
    for line in re.finditer(COUNTED[path], text, re.M):
        for found in re.finditer(r"0x([0-9A-F]{4}|[0-9A-F]{2})(?!\w)|(?<![\w])\d+", line[0]):
            more = f"0x{int(found[1], 16) + 1:0{len(found[1])}X}" if found[1] else str(int(found[0]) + 1)
            start = line.start() + found.start()
            spoiled = texts | {path: text[:start] + more + text[start + len(found[0]) :]}
            if not noticed(spoiled, due if line[0].startswith("|") else None):
                yield f"{found[0]} in line {text.count(chr(10), 0, start) + 1} may be {more}"


def same_number(texts):
    """Two fields change places, and the page follows: the layout's number is then wrong, and nothing else."""
    moved = texts | {WRITING: texts[WRITING].replace("r.gid ∷ r.oid", "r.oid ∷ r.gid")}
    wrong = {name for name, found in problems(moved | {PAGE: rewritten(moved)}).items() if found}
    return [] if wrong == {"the layout's number"} else [f"wrong is {wrong or 'nothing'}"]


def main():
    texts = {path: (ROOT / path).read_text() for path in (PAGE, HEADER, *FILES)}
    if sys.argv[1:] == ["--write"]:
        (ROOT / PAGE).write_text(rewritten(texts))
        return 0
    suite = Suite("area")
    for name, wrong in problems(texts).items():
        suite.check(name, wrong)
    # where something is wrong already, nothing can be seen of a change
    if suite.failed == 0:
        for path in COUNTED:
            suite.check(f"one more in {path}", list(unnoticed(texts, path)))
        suite.check("another map with the same number", same_number(texts))
    return suite.end()


if __name__ == "__main__":
    sys.exit(main())
