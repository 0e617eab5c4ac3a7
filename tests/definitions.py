"""Definitions and constants, read from their texts: numbers of antt and of Rattle, and parts of an expression."""
import re


def split(text, *signs):
    """The parts of an expression between signs that stand outside parentheses."""
    parts, depth = [""], 0
    for word in re.split(rf"([()]|{'|'.join(map(re.escape, signs))})", text):
        depth += (word == "(") - (word == ")")
        if word in signs and depth == 0:
            parts.append("")
        else:
            parts[-1] += word
    return [part.strip() for part in parts]


def definition(text, name):
    """What stands behind the equals sign of a definition, up to a blank line."""
    found = re.search(rf"^{re.escape(name)} [^=\n]*=\s(.*?)(?:\n\n|\Z)", text, re.M | re.S)
    if not found:
        raise LookupError(f"{name} is not defined")
    return found[1]


def value(expression, names):
    """A number from names, sums, differences and products; a name before another word is applied to it."""
    applied = re.sub(r"\b([a-z]\w*) (\w+)", r"\1(\2)", expression)
    return eval(applied, {"__builtins__": {}}, names)


def defined(*texts):
    """The numbers, and the numbers by place, that definitions have; later texts name those of earlier ones."""
    form = re.compile(r"^abbrev pub (\w+) : ℕ( → ℕ)?\n\1 (\w+ )?= ([\w+*() -]+)$", re.M)
    names = {}
    for name, of, parameter, said in form.findall("\n".join(texts)):
        if of:
            names[name] = lambda n, p=parameter.strip(), s=said: value(s, names | {p: n})
        else:
            names[name] = value(said, names)
    return names


def coded(text, names):
    """The constants of a module of the code, and its functions of a place, over those of others."""
    found = {}
    for name, said in re.findall(r"^(?:pub )?const (\w+): usize = (.*);$", text, re.M):
        found[name] = value(said, names | found)
    for name, said in re.findall(r"^pub fn (\w+)\(place: usize\) -> usize.*?\{\n    (.*?)\n\}$", text, re.M | re.S):
        found[name] = lambda n, s=said: value(s, found | {"place": n})
    return found
