"""What `example_toml` says of TOML texts, compared with Python's `tomllib`, which reads TOML 1.0.

The folder `toml` has the texts: the examples of the TOML 1.0 text, valid and invalid, and what is new in TOML 1.1. A text has problems exactly
if `tomllib` refuses it. If it is valid, the ranges of its headers and keys make up the same document, each key has the value that `tomllib`
reads in its range, and no key is missing.
"""
import tomllib
from pathlib import Path

import toml_features
from lsp import expect
from toml_session import ERROR, NOTE, WARNING, Problems, errors, none, place

TEXTS = Path(__file__).resolve().parent / "toml"



def is_valid(text):
    try:
        tomllib.loads(text)
    except tomllib.TOMLDecodeError:
        return False
    return True


def cases(name):
    return (TEXTS / f"{name}.txt").read_text().split("---\n")


class Lines:
    """The offsets of a text's positions, in the units of an encoding (LSP 3.17, "PositionEncodingKind")."""

    def __init__(self, text, encoding):
        self.text, self.lines = text, text.split("\n")
        self.starts = [0]
        for line in self.lines:
            self.starts.append(self.starts[-1] + len(line) + 1)
        self.codec, self.unit = {"utf-8": ("utf-8", 1), "utf-16": ("utf-16-le", 2)}[encoding]

    def offset(self, position):
        before = self.lines[position["line"]].encode(self.codec)[: position["character"] * self.unit]
        return self.starts[position["line"]] + len(before.decode(self.codec))

    def part(self, its_range):
        return self.text[self.offset(its_range["start"]) : self.offset(its_range["end"])]


def path_of(key):
    """The parts of a dotted key."""
    found, inner = [], tomllib.loads(f"{key} = 0")
    while isinstance(inner, dict):
        ((part, inner),) = inner.items()
        found.append(part)
    return tuple(found)


def values(data, path=()):
    """All keys and what they hold: pairs of a path and a value. Items of arrays have the path of their array."""
    if isinstance(data, list):
        for item in data:
            yield from values(item, path)
    elif isinstance(data, dict):
        for key, value in data.items():
            yield (*path, key), repr(value)
            yield from values(value, (*path, key))


def held(part, path):
    """What a part of a text, read on its own, holds under each end of a path."""
    for count in range(len(path)):
        inner = tomllib.loads(part)
        for name in path[count:]:
            inner = inner.get(name) if isinstance(inner, dict) else None
        yield inner


def check_symbols(lines, symbols):
    """The headers and keys of a valid text are those that `tomllib` finds, and their ranges have the values that it reads."""
    data = tomllib.loads(lines.text)
    wanted, named, pieces, end = set(values(data)), set(), [], 0
    for symbol in symbols:
        its_range = symbol["location"]["range"]
        part, path = lines.part(its_range), path_of(symbol["name"])
        if not part.startswith("["):
            is_right = any((path, repr(value)) in wanted for value in held(part, path))
            expect(f"whether {symbol['name']} holds what its range says", is_right, True)
        named |= {path[: count + 1] for count in range(len(path))}
        if lines.offset(its_range["start"]) >= end:
            pieces.append(part)
            end = lines.offset(its_range["end"])
    expect("the keys", named, {path for path, _ in wanted})
    expect("the document that the ranges make up", repr(tomllib.loads("\n".join(pieces))), repr(data))


def check_texts(session, texts):
    """What the server says of each text."""
    for uri, text in texts.items():
        session.open(text, uri=uri)
    for uri, text in texts.items():
        expect(f"whether {uri} has problems", session.marks(uri, 1) != [], not is_valid(text))
        symbols = session.ask("textDocument/documentSymbol", uri)
        if is_valid(text):
            check_symbols(Lines(text, session.encoding), symbols)
    session.shown = []
    for uri in texts:
        session.close(uri)
        session.look(f"a close of {uri}", [none(uri)], None, uri)
    valid = sum(map(is_valid, texts.values()))
    print(f"{session.encoding}: {valid} valid texts, and {len(texts) - valid} that are not")


def edited(text, edits, encoding):
    """A text after edits that do not overlap (LSP 3.17, "TextEdit[]")."""
    lines = Lines(text, encoding)
    for it in sorted(edits, key=lambda it: lines.offset(it["range"]["start"]), reverse=True):
        start, end = (lines.offset(it["range"][side]) for side in ("start", "end"))
        text = text[:start] + it["newText"] + text[end:]
    return text


def check_features(session):
    """What the server answers about texts. The client shows symbols as a tree."""
    legend = session.can["semanticTokensProvider"]["legend"]["tokenTypes"]
    for text, method, params, wanted in toml_features.cases(session.encoding):
        session.open(text)
        result = session.ask(f"textDocument/{method}", NOTE, **params)
        if method == "formatting" and result is not None:
            result = edited(text, result, session.encoding)
        expect(f"{method} in {text!r} at {params}", toml_features.in_order(method, result, legend), wanted)
        session.close()
        expect(f"{method} without a text", session.ask(f"textDocument/{method}", NOTE, **params), None)
    session.shown = []


def check_places(session):
    """What is wrong is an error, and what is new in TOML 1.1 a warning. Each stands where it is."""
    session.open("a = 1\n𝒙 = 1\nlt = 07:32\n")
    message = session.receive()
    found = [(it["severity"], it["source"], it["range"]["start"]) for it in message["params"]["diagnostics"]]
    expect("the problems", found, [(ERROR, "toml", place(1, 0)), (WARNING, "toml", place(2, 5))])
    session.close()
    session.look("a close", [Problems(NOTE, 1, [(ERROR, 1), (WARNING, 2)]), none()], None)


def check_list(session):
    """The same symbols for a client that shows no tree."""
    text = toml_features.TEXT
    session.open(text)
    symbols = session.ask("textDocument/documentSymbol", NOTE)
    wanted = toml_features.flat(toml_features.resolved(toml_features.tree(), session.encoding))
    expect("a list of symbols", [(it["name"], it["location"]["range"]) for it in symbols], list(wanted))
    session.close()
    session.ask("toml/text", NOTE)
    session.shown = []


def check_example(session):
    """Hovers and a search of the example on the first page of TOML 1.0."""
    text = "\n".join(cases("example"))
    session.open(text)
    session.look("an open", [errors(1)], text)
    lines = Lines(text, session.encoding)
    for line, character, part, said in (
        (2, 1, "title", "title: string"),
        (16, 3, "servers", "servers: table"),
        (16, 11, "alpha", "servers.alpha: table"),
        (12, 17, "cpu", "database.temp_targets.cpu: float"),
        (6, 20, "1979-05-27T07:32:00-08:00", "owner.dob: date-time"),
        (10, 10, "[ 8000, 8001, 8002 ]", "database.ports: array"),
    ):
        hover = session.ask("textDocument/hover", NOTE, position=place(line, character))
        expect("a hover", (lines.part(hover["range"]), hover["contents"]["value"]), (part, said))
    expect("a hover at nothing", session.ask("textDocument/hover", NOTE, position=place(1, 0)), None)
    expect("a hover in a document that is not open", session.ask("textDocument/hover", NOTE + "x", position=place(2, 1)), None)
    found = session.search("e.temp")
    expect("a search", [it["name"] for it in found], [f"database.temp_targets{it}" for it in ("", ".cpu", ".case")])
    expect("its ranges", [lines.part(it["location"]["range"]) for it in found], ["temp_targets", "cpu", "case"])
    session.close()
    session.look("a close", [none()], None)
