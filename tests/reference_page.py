"""docs/REFERENCE.md and the definitions, read: tables of the page, numbers by name, fields by place."""
import re

PAGE, CARD, REFUSALS, HEADER = "docs/REFERENCE.md", "docs/CARD.md", "tests/data/refusals.txt", "include/nci_bench.h"
NAMES, RADIO, TYPES = "crates/state/specs/Names.antt", "crates/state/specs/Radio.antt", "crates/packets/specs/Types.antt"
FIELDS, LAYOUT, WRITING = "crates/state/src/fields.rt", "crates/messages/specs/Layout.antt", "crates/record/specs/Writing.antt"
CONTROLLER, AIR = "crates/nfcc/specs/Controller.antt", "crates/air/specs/Air.antt"
CONFIG, PARAMETERS = "crates/config/specs/Commands.antt", "crates/config/specs/Table.antt"
EXACT = "crates/model/specs/Exact.antt"
READ = (PAGE, CARD, REFUSALS, HEADER, NAMES, RADIO, TYPES, FIELDS, LAYOUT, WRITING, CONTROLLER, AIR, CONFIG, PARAMETERS, EXACT)


def tables(page):
    """The tables of the page: the heading of the section, the heads of the columns, the rows."""
    heading, head, rows = "", [], []
    for line in [*page.split("\n"), ""]:
        if line.startswith("#"):
            heading = line.lstrip("# ")
        if line.startswith("|"):
            cells = [cell.strip() for cell in line.strip("|").split("|")]
            if not head:
                head = cells
            elif not line.startswith("|--"):
                rows.append(cells)
        elif head:
            yield heading, head, rows
            head, rows = [], []


def table(texts, *heads):
    """The rows of the one table whose columns begin with these heads."""
    found = [rows for _, head, rows in tables(texts[PAGE]) if head[: len(heads)] == list(heads)]
    if len(found) != 1:
        raise LookupError(f"{len(found)} tables have the columns {heads}")
    return found[0]


def names(texts, *starts):
    """The numbers of Names by name: of all sections, or of those whose comments start so."""
    sections = re.split(r"^-- (?:---- )?", texts[NAMES], flags=re.M)
    wanted = [section for section in sections if not starts or section.startswith(starts)]
    return {name: int(said, 0) for section in wanted for name, said in re.findall(r"^(\w+) = (\w+)$", section, re.M)}


def places(texts):
    return {name: int(said) for name, said in re.findall(r"^pub const (\w+): usize = (\d+);", texts[FIELDS], re.M)}


def octets(text):
    """The octets that a text is, or None."""
    return [int(pair, 16) for pair in text.split()] if re.fullmatch(r"[0-9A-F]{2}(?: [0-9A-F]{2})*", text) else None


def differ(found, due, what=""):
    """One text where two values are not the same."""
    return [] if found == due else [f"{what} {found}, defined as {due}".strip()]
