#!/usr/bin/env python3
"""The refusals of each call and their order, by tests/data/refusals.txt: the model's rules, the card, the header and the
second implementation have to say the same. A call at one place is one test.

Numbers are taken where a text gives them as refusals; each of these places, changed to another number, has to be noticed."""
import re
import sys
from collections import namedtuple

from definitions import definition, split
from programs import ROOT, Suite

TABLE = ROOT / "tests" / "data" / "refusals.txt"
KINDS = range(1, 9)
# those that every call on a bench begins with
ENTRY = {1, 2}
# a number that is on no card
NONE = "77"

# a refusal's number, and the kinds of air events for which alone it comes, if it is bound to some
Refusal = namedtuple("Refusal", ("number", "kinds"), defaults=(None,))
# what says the orders: its files, how they are read, and where in them a refusal's number stands: in which part, and after what
Source = namedtuple("Source", ("name", "files", "orders", "places"))


def kinds_in(least, joint, most):
    """Kinds in words or signs: 8, 2 and 3, 1 to 7, 2-3."""
    return frozenset(range(int(least), int(most if joint else least) + 1))


def load(text=None):
    """The table: of each call its refusals in order."""
    lines = [line.split() for line in (text or TABLE.read_text()).splitlines() if not line.startswith("#")]
    return {call: [entry(word) for word in words] for call, *words in lines}


def entry(word):
    number, kinds = re.fullmatch(r"(\d+)(?::(\d(?:-\d)?))?", word).groups()
    return Refusal(int(number), kinds_in(*re.fullmatch(r"(\d)(?:(-)(\d))?", kinds).groups()) if kinds else None)


def own(refusals):
    """The numbers of a call that are not about areas and buffers."""
    return [refusal.number for refusal in refusals if refusal.number not in ENTRY]


def by_kind(refusals):
    """The numbers in order, for each kind that one of them is bound to a list."""
    if all(refusal.kinds is None for refusal in refusals):
        return [[refusal.number for refusal in refusals]]
    return [[r.number for r in refusals if r.kinds is None or kind in r.kinds] for kind in KINDS]


def once(numbers):
    """A number that follows itself is one refusal."""
    return [n for i, n in enumerate(numbers) if i == 0 or n != numbers[i - 1]]


# ---- the model's rules

MODEL_CALLS = "crates/model/specs/calls"
OCTET_CALLS = "crates/calls/specs/calls"
# how a rule of air asks for the kind
KIND_TESTS = {
    r"eqb kind (\d)": lambda kind, n: kind == n,
    r"leb (\d) kind": lambda kind, n: n <= kind,
    r"leb kind (\d)": lambda kind, n: kind <= n,
    r"\(eqb kind (\d) \|\| eqb kind (\d)\)": lambda kind, m, n: kind in (m, n),
}


def kinds_of(test):
    """The kinds of air events that a test lets through; none where it does not ask, or asks for what is no kind."""
    left = {0, *KINDS}
    for part in split(test, "&&"):
        for form, keeps in KIND_TESTS.items():
            asked = re.fullmatch(form, part)
            if asked:
                left &= {kind for kind in left if keeps(kind, *map(int, asked.groups()))}
                break
        else:
            if "kind" in part:
                raise LookupError(f"a test of another form: {part}")
    return None if 0 in left else frozenset(left)


def rules_in(body):
    """The rules of a list of them, and of nothing else."""
    body = re.sub(r"^let .*? in\n", "", body.strip(), flags=re.S)
    *rules, last = split(body, "∷")
    forms = [re.fullmatch(r"rule (\d+) \((.*)\)", rule, re.S) for rule in rules]
    if last != "[]" or not all(forms):
        raise LookupError(f"not a list of rules: {body}")
    return [Refusal(int(form[1]), kinds_of(form[2])) for form in forms]


def model_orders(texts):
    """The entry's rules, then those that the model has: of a call as it is defined on octets."""
    bench, outcome = texts["crates/model/specs/Bench.antt"], texts["crates/calls/specs/Outcome.antt"]
    orders = {}
    for call, body in re.findall(r"^rules \(?(\w+).*? s = (.*)$", bench, re.M):
        if re.fullmatch(rf"{call}_rules .*", body):
            body = definition(texts[f"{MODEL_CALLS}/{call.capitalize()}.antt"], f"{call}_rules")
        octets = texts[f"{OCTET_CALLS}/{call.capitalize()}.antt"]
        begins = definition(octets, f"{call}_call").split()[0]
        first = (outcome, "entry_rules") if begins == "called" else (octets, "room_rules")
        orders[call] = rules_in(definition(*first)) + rules_in(body)
    packet, look, read, run = (texts[f"crates/calls/specs/{name}.antt"] for name in ("Packet", "Look", "Read", "Run"))
    orders["packet"] = rules_in(definition(outcome, "entry_rules")) + rules_in(definition(packet, "packet_rules"))
    for call, text in (("state", look), ("run", run)):
        begins, rules = definition(text, f"{call}_call").split()[:2]
        if begins != "called":
            raise LookupError(f"{call} begins with {begins}")
        orders[call] = rules_in(definition(outcome, "entry_rules")) + rules_in(rules)
    orders["read"] = [Refusal(int(n)) for n in re.findall(r"refused (\d+)", definition(read, "found_of"))]
    return {call: [once(numbers) for numbers in by_kind(refusals)] for call, refusals in orders.items()}


# ---- the card and the header

GIVEN = r"(?:^|(?<=then ))(\d+)"


def card_orders(texts):
    """The lists of docs/CARD.md; those of air are one for each kind, after the one for what is no kind."""
    text = texts["docs/CARD.md"].split("## The order of each call")[1]
    form = r"Every call but (\w+) and (\w+) begins with the same three: (\d+) .*?, then (\d+), then (\d+) "
    begin = re.search(form, text)
    first = [int(n) for n in begin.groups()[2:]]
    orders, kinds = {}, {}
    for call, said in re.findall(r"^- (\w+): (.*)$", text, re.M):
        numbers = [int(n) for n in re.findall(GIVEN, said)]
        orders[call] = [numbers if call in begin.groups()[:2] else first + numbers]
    none = [int(n) for n in re.findall(r"^- air, [^:]*: (\d+)", text, re.M)]
    for least, joint, most, said in re.findall(r"^- air (\d)(?: (and|to) (\d))?, [^:]*: (.*)$", text, re.M):
        for kind in kinds_in(least, joint, most):
            kinds.setdefault(kind, []).extend(none + [int(n) for n in re.findall(GIVEN, said)])
    return orders | {"air": [first + kinds.get(kind, []) for kind in KINDS]}


def header_orders(texts):
    """The comments before the declarations, after the three that the first comment has."""
    text = texts["include/nci_bench.h"]
    begin = re.search(r"Every call but nci_(\w+)\s+\*? ?and nci_(\w+) begins with the same three.*?\.\n \*\n", text, re.S)
    first = [Refusal(int(n)) for n in re.findall(r"^ \*   (\d+), ", begin[0], re.M)]
    orders = {}
    for comment, call in re.findall(r"/\*((?:(?!\*/).)*)\*/\nuint64_t nci_(\w+)\(", text, re.S):
        said = re.sub(r"\s*\n \* *", " ", comment)
        listed = re.search(r"Refusals in order: (.*)\.", said)
        if not listed and "No refusal of its own." not in said:
            raise LookupError(f"nci_{call} says no refusals")
        numbers = [header_refusal(item) for item in listed[1].split("; ")] if listed else []
        orders[call] = by_kind(numbers if call in begin.groups() else first + numbers)
    return orders


def header_refusal(item):
    form = re.match(r"(\d+), (?:for kinds? (\d)(?: (and|to) (\d))?, )?", item)
    if not form:
        raise LookupError(f"not a refusal: {item}")
    return Refusal(int(form[1]), kinds_in(*form.groups()[1:]) if form[2] else None)


# ---- the second implementation


def second_orders(texts):
    """`REFUSALS_OF` by the names of its calls: without 1 and 2, and without the kinds."""
    names = re.search(r"const NAMES: [^=]*= \[(.*?)\];", texts["second/src/call.rs"], re.S)[1]
    lists = re.search(r"const REFUSALS_OF: [^=]*= \[(.*?)\n\];", texts["second/src/trial.rs"], re.S)[1]
    numbers = [[int(n) for n in re.findall(r"\d+", one)] for one in re.findall(r"&\[(.*?)\]", lists)]
    return {name: [one] for name, one in zip(re.findall(r'"(\w+)"', names), numbers, strict=True)}


# ---- what is compared

MODEL_FILES = [
    "crates/model/specs/Bench.antt",
    *(f"crates/calls/specs/{name}.antt" for name in ("Outcome", "Packet", "Look", "Read", "Run")),
    *(str(path.relative_to(ROOT)) for folder in (MODEL_CALLS, OCTET_CALLS) for path in sorted((ROOT / folder).glob("*.antt"))),
]
SECOND_FILES = ["second/src/call.rs", "second/src/trial.rs"]
CARD_NUMBER = r"(?:^- (?:\w+|air[^:\n]*): |then |same three: )(\d+)"
SOURCES = [
    Source("the model", MODEL_FILES, model_orders, (".+", r"\b(?:rule|refused) (\d+)")),
    Source("the card", ["docs/CARD.md"], card_orders, ("## The order.*", CARD_NUMBER)),
    Source("the header", ["include/nci_bench.h"], header_orders, (".+", r"(?:order: |; |^ \*   )(\d+),\s")),
    Source("the second implementation", SECOND_FILES, second_orders, (r"REFUSALS_OF: .*?\n\];", r"(?<=[\[ ])(\d+)(?=[,\]])")),
]
# what only looks is no call of the sheet: neither the card nor the second implementation has it
LOOKS = {"packet", "state"}
WITHOUT_LOOKS = {"the card", "the second implementation"}


def due(source, table):
    """What a source is to say."""
    calls = {call: refusals for call, refusals in table.items() if call not in LOOKS or source.name not in WITHOUT_LOOKS}
    if source.orders is second_orders:
        return {call: [own(refusals)] for call, refusals in calls.items()}
    return {call: by_kind(refusals) for call, refusals in calls.items()}


def read(source):
    return {name: (ROOT / name).read_text() for name in source.files}


def differences(source, texts, table):
    """Of each call, at this source and in the table, what is wrong."""
    try:
        said = source.orders(texts)
    except (LookupError, ValueError, TypeError, AttributeError) as fault:  # the text has another form
        return {call: [f"cannot be read: {fault}"] for call in due(source, table)}
    wanted = due(source, table)
    return {
        call: [] if said.get(call) == wanted.get(call) else [f"{said.get(call)}, the table has {wanted.get(call)}"]
        for call in {**wanted, **said}
    }


# ---- the card's numbers


def numbers_at():
    """The numbers that three texts have for the whole card, and the least of them there."""
    card, header, second = [(ROOT / name).read_text() for name in ("docs/CARD.md", "include/nci_bench.h", "second/src/call.rs")]
    answers = re.search(r"/\* ---- answers: (.*?)/\* ----", header, re.S)[1]
    yield "docs/CARD.md", 1, re.findall(r"^- (\d+): ", card, re.M)
    yield "include/nci_bench.h", 0, re.findall(r"^#define NCI_\w+ (\d+)u$", answers, re.M)
    yield "second/src/call.rs", 3, re.search(r"const REFUSALS: [^=]*= \[(.*?)\];", second)[1].split(", ")


# ---- that a change is noticed


def places(source, text):
    """Where in a text of the source a refusal's number stands."""
    region, number = source.places
    for part in re.finditer(region, text, re.S):
        for found in re.compile(number, re.M).finditer(text, *part.span()):
            yield found.span(1)


def unnoticed(source, table):
    """Places of a source where another number makes no difference, and calls of which no place is known."""
    texts, met = read(source), set()
    for name, text in texts.items():
        for start, end in places(source, text):
            spoiled = differences(source, texts | {name: text[:start] + NONE + text[end:]}, table)
            calls = {call for call, wrong in spoiled.items() if wrong}
            met |= calls
            if not calls:
                yield f"{name}: {text[start:end]} in line {text.count(chr(10), 0, start) + 1} may be {NONE}"
    yield from (f"no place of {call}" for call, orders in due(source, table).items() if orders != [[]] and call not in met)


def unnoticed_in_table(sources):
    """Numbers and kinds of the table that may be one more."""
    text, texts = TABLE.read_text(), {source.name: read(source) for source in sources}
    for found in re.compile(r"(?<=[ :-])\d+").finditer(text, text.index("\nfresh ")):
        table = load(text[: found.start()] + str(int(found[0]) + 1) + text[found.end() :])
        if not any(any(differences(source, texts[source.name], table).values()) for source in sources):
            yield f"{found[0]} at {found.start()}"


def main():
    suite, table = Suite("refusals"), load()
    for source in SOURCES:
        for call, wrong in differences(source, read(source), table).items():
            suite.check(f"{call}, {source.name}", wrong)
    every = {refusal.number for refusals in table.values() for refusal in refusals}
    for name, least, numbers in numbers_at():
        suite.equal(f"the numbers of {name}", list(map(int, numbers)), sorted(n for n in every | {0} if n >= least))
    for source in SOURCES:
        suite.check(f"another number, {source.name}", list(unnoticed(source, table)))
    suite.check("another number, the table", list(unnoticed_in_table(SOURCES)))
    return suite.end()


if __name__ == "__main__":
    sys.exit(main())
