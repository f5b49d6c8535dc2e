"""Reads the tables of the types of LSP: types.txt of lsp_types and of the crates above it. The head of `tools/types` explains them.

`tools/types` writes the code from the tables, `tools/rows/typed.py` writes the rows that read and write each type, and `tools/against.py`
compares the tables with LSP's meta model.
"""
import re
import sys
from dataclasses import dataclass, field
from pathlib import Path

ROOT = Path(__file__).resolve().parent.parent
# The crates with a table. Each may use the types of the first.
CRATES = sorted(path.parent for path in (ROOT / "crates").glob("*/types.txt"))
RESERVED = {"type": "typ"}
KINDS = ("struct", "numbers", "union", "alias", "methods", "module")


@dataclass
class Item:
    kind: str
    name: str
    marks: list
    doc: str
    at: str
    members: list = field(default_factory=list)
    makers: list = field(default_factory=list)
    bounds: tuple = None
    place: str = None


@dataclass
class Member:
    key: str
    name: str
    type: str
    how: str
    doc: str
    at: str
    is_lenient: bool = False
    offer: str = None


def snake(key):
    name = re.sub(r"([a-z0-9])([A-Z])", r"\1_\2", key).lower()
    return RESERVED.get(name, name)


def member(text, doc, at):
    key, _, kind = text.partition(": ")
    key, _, name = key.partition("=")
    if not kind:
        sys.exit(f"{at}: no member, constructor or value has this form: {text}")
    how, is_lenient = "required", kind.endswith("!")
    kind, plus, inside = kind.rstrip("!").partition("+")
    if kind.startswith('"'):
        how = "named"
    elif kind[-1] in "?~*":
        how, kind = {"?": "optional", "~": "nullable", "*": "rest"}[kind[-1]], kind[:-1]
    return Member(key, name or snake(key), kind.strip('"'), how, doc, at, is_lenient, inside if plus else None)


def with_section(doc, section):
    first, dot, rest = doc.partition(". ")
    return f"{first.rstrip('.')} (LSP 3.17, \"{section}\").{' ' * bool(dot)}{rest}" if section else doc


def add(item, text, doc, section, at):
    """Reads a line below an item."""
    words = re.sub(' "[^"]*"', "", text).split(" ")
    if item.kind == "methods":
        item.members.append((words, with_section(doc, section), at))
    elif item.kind in ("numbers", "union"):
        item.members.append((*text.split(" ", 2), doc))
    elif words[0] in ("new", "default"):
        word, _, given = text.partition(" ")
        item.makers.append((given or word, doc))
    else:
        item.members.append(member(text, doc, at))


def read(path):
    """The modules of the table, each with its doc and its items."""
    modules, item = {}, None
    for number, line in enumerate(path.read_text().splitlines(), 1):
        text, _, doc = line.partition(" | ")
        if not line.strip() or line.startswith("#"):
            continue
        at, section = f"{path.relative_to(ROOT)}:{number}", re.search('"([^"]*)"', text)
        if line.startswith("  "):
            add(item, text.strip(), doc, section and section[1], at)
            continue
        kind, *words = re.sub(' "[^"]*"', "", text).split(" ")
        if kind not in KINDS:
            sys.exit(f"{at}: a line begins with one of {', '.join(KINDS)}, or with two spaces: {text}")
        if kind == "module":
            items = []
            modules[words[0]] = (doc, items)
            continue
        doc = with_section(doc, section and section[1])
        item = Item(kind, words[0] if words else kind, words[1:], doc, at, place=f"{path.parent.name}.specs.declared.{[*modules][-1]}")
        if kind == "methods":
            modules[kind] = (doc, [item])
            continue
        items.append(item)
        if kind == "numbers" and ".." in words[1]:
            item.bounds = tuple(map(int, words[1].split("..")))
            item.doc += " On reading, another number is refused."
    return modules


def declared():
    """All types by name, without the parameter of those that have one, and the methods."""
    found = [it for crate in CRATES for _, items in read(crate / "types.txt").values() for it in items]
    methods = [line for it in found if it.kind == "methods" for line in it.members]
    return {re.sub("<.*", "", it.name): it for it in found if it.kind != "methods"}, methods
