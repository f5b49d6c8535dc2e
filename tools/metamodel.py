"""LSP's meta model, as the table `metamodel.txt` has it.

`read` gives the types by name, and the methods. `tools/types --check` compares our tables with them, and `tests/typed.py` the messages of
servers.
"""
import re
from pathlib import Path

TABLE = Path(__file__).resolve().with_name("metamodel.txt")
WORD = re.compile(r'"[^"]*"|-?\d+\.\.-?\d+|->|[\w$/]+|[][{}|?:;=]')


def read():
    return parse(TABLE.read_text(encoding="utf-8"))


def parse(text):
    """The types by name, and the kind, the direction, the params and the result of each method."""
    types, methods = {}, {}
    for line in text.replace("\n    ", " ").splitlines():
        words = WORD.findall(line) if not line.startswith("#") else []
        if words[1:2] == ["="]:
            types[words[0]] = choice(words[2:])
        elif words:
            kind, name, _, direction, _, *rest = words
            at = rest.index("->") if "->" in rest else len(rest)
            methods[name] = kind, direction, choice(rest[:at]), choice(rest[at + 1 :])
    return types, methods


def choice(words):
    """A type: the list of its forms. A form is a word, `("list", TYPE)`, `("map", TYPE)` or `("object", {KEY: (TYPE, IS_NEEDED)})`."""
    found = [form(words)] if words and words != ["none"] else []
    while words[:1] == ["|"]:
        del words[0]
        found.append(form(words))
    return found


def form(words):
    word = words.pop(0)
    if word == "{" and (words[0] == "}" or words[1] in "?:"):
        return "object", members(words)
    if word not in ("[", "{"):
        return word
    inner = choice(words)
    del words[0]
    return "list" if word == "[" else "map", inner


def members(words):
    found = {}
    while words[0] != "}":
        key, is_needed = words.pop(0), words[0] != "?"
        del words[: 1 if is_needed else 2]
        found[key] = choice(words), is_needed
        if words[0] == ";":
            del words[0]
    del words[0]
    return found


def without_registration(forms):
    """The forms without the options of a registration. A server that has other options does not send those."""
    return [it for it in forms if not isinstance(it, str) or not it.endswith("RegistrationOptions")] or forms


# Values beside the model's types.


IS_PLAIN = {
    "any": lambda value: True,
    "null": lambda value: value is None,
    "boolean": lambda value: isinstance(value, bool),
    "string": lambda value: isinstance(value, str),
    "integer": lambda value: is_integer(value, -(2**31)),
    "uinteger": lambda value: is_integer(value, 0),
    "decimal": lambda value: isinstance(value, (int, float)) and not isinstance(value, bool),
}


def is_integer(value, least):
    return isinstance(value, int) and not isinstance(value, bool) and least <= value < 2**31


class Values:
    """Says what is wrong with values, by these types."""

    def __init__(self, types):
        self.types = types

    def wrong(self, forms, value, at):
        """What is wrong with a value at a place, as the form says that comes nearest."""
        found = (self.wrong_form(it, value, at) for it in without_registration(forms))
        return min(found, key=lambda faults: distance(faults, at))

    def wrong_form(self, form, value, at):
        if isinstance(form, str):
            return self.wrong_word(form, value, at)
        kind, inner = form
        if not isinstance(value, list if kind == "list" else dict):
            return [f"{at}: {str(value)[:60]!r} is no {'list' if kind == 'list' else 'object'}"]
        if kind == "object":
            return self.wrong_members(inner, value, at)
        items = enumerate(value) if kind == "list" else value.items()
        return [fault for key, item in items for fault in self.wrong(inner, item, f"{at}/{key}")]

    def wrong_word(self, word, value, at):
        if word.startswith('"'):
            return [] if value == word[1:-1] else [f"{at}: {value!r} in place of {word}"]
        if ".." in word:
            least, most = map(int, word.split(".."))
            return [] if is_integer(value, least) and value <= most else [f"{at}: {value!r} is none of {word}"]
        if word in IS_PLAIN:
            return [] if IS_PLAIN[word](value) else [f"{at}: {str(value)[:60]!r} is no {word}"]
        return self.wrong(self.types[word], value, at)

    def wrong_members(self, members, value, at):
        faults = [f"{at}: no {key}" for key, (_, is_needed) in sorted(members.items()) if is_needed and key not in value]
        faults += [f"{at}: the key {key}" for key in value if key not in members]
        return faults + [fault for key, item in value.items() if key in members for fault in self.wrong(members[key][0], item, f"{at}/{key}")]


def distance(faults, at):
    """A value of another kind is further off than one with something wrong in it."""
    return any(fault.startswith(f"{at}: ") and " is no " in fault for fault in faults), len(faults)
