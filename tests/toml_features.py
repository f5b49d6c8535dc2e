"""What `example_toml` answers about texts: requests, and the results that LSP 3.17 and TOML 1.0 require. `toml_client.py` tries them.

    for text, method, params, result in cases(encoding)

The params have no `textDocument`. Lists in which LSP requires no order are sorted by `in_order`. Semantic tokens are tuples of a line, a
start, a length and a type. A result of `textDocument/formatting` is the text that the edits make, or None for null. Completions are
pairs of a label and a range.
"""
TEXT = '''title = "𝒙"\r
[owner]\r
"é" = { name = "Tom", born = 1979-05-27 } # note\r
'''
BLOCKS = '# one\n# two\n\n# three\na = [\n  1, # four\n  2,\n]\nb = """\nx\n"""\n[t]\nc = 1\n'
TABLES = "[a.b]\n[[c]]\n[c.d]\n[[c]]\n[c.d]\n[a.b.e]\n"
PACKAGES = '[dep.a]\nversion = "1"\nfeatures = []\n[dep.b]\n\nversion = "2"\n'

FORMATTED = {
    "": "",
    " \n\n": "",
    "a = 1\n": "a = 1\n",
    "a=1": "a = 1\n",
    "\n\na  =\t1  \n\n\n\nb = 2\n\n": "a = 1\n\nb = 2\n",
    "# c  \r\n\r\n \r\n[t]  # d  \r\nk={x=1}\r\n\r\n": "# c  \r\n\r\n[t]  # d  \r\nk = {x = 1}\r\n",
    'a="""  \n\n\n x  \n"""  \n': 'a = """  \n\n\n x  \n"""\n',
    "a = [  \n\n\n  1,   \n]\t\n": "a = [\n\n  1,\n]\n",
    '"𝒙"="="\n': '"𝒙" = "="\n',
    "a = \n": None,
    "a = 1\na = 2\n": None,
}


class Place:
    """A position, whose character has one number in UTF-16 and another in UTF-8."""

    def __init__(self, line, character, in_utf8=None):
        self.line = line
        self.characters = {"utf-16": character, "utf-8": character if in_utf8 is None else in_utf8}


def part(line, start, end, in_utf8=None):
    """A range in one line."""
    first, last = in_utf8 or (start, end)
    return {"start": Place(line, start, first), "end": Place(line, end, last)}


def whole(first, last):
    return {"start": first, "end": last}


def symbol(name, kind, its_range, selection, *children):
    return {"name": name, "kind": kind, "range": its_range, "selectionRange": selection, "children": list(children)}


def hovers():
    for line, character, words, its_range in (
        (0, 2, "title: string", part(0, 0, 5)),
        (0, 9, "title: string", part(0, 8, 12, (8, 14))),
        (1, 3, "owner: table", part(1, 1, 6)),
        (2, 1, 'owner."é": inline table', part(2, 0, 3, (0, 4))),
        (2, 10, 'owner."é".name: string', part(2, 8, 12, (9, 13))),
        (2, 32, 'owner."é".born: date-time', part(2, 29, 39, (30, 40))),
    ):
        yield Place(line, character), {"contents": {"kind": "plaintext", "value": words}, "range": its_range}
    yield Place(2, 45), None
    yield Place(3, 0), None


def tree():
    end = Place(2, 41, 42)
    name = symbol("name", 15, part(2, 8, 20, (9, 21)), part(2, 8, 12, (9, 13)))
    born = symbol("born", 14, part(2, 22, 39, (23, 40)), part(2, 22, 26, (23, 27)))
    person = symbol('"é"', 19, whole(Place(2, 0), end), part(2, 0, 3, (0, 4)), name, born)
    title = symbol("title", 15, part(0, 0, 12, (0, 14)), part(0, 0, 5))
    return [title, symbol("owner", 19, whole(Place(1, 0), end), part(1, 0, 7), person)]


def flat(symbols, above=""):
    """The same symbols as a list with full keys: pairs of a name and a range."""
    for it in symbols:
        name = f"{above}.{it['name']}" if above else it["name"]
        yield name, it["range"]
        yield from flat(it["children"], name)


def tokens(encoding):
    wide, letter = {"utf-16": (4, 0), "utf-8": (6, 1)}[encoding]
    yield TEXT, [
        (0, 0, 5, "property"),
        (0, 8, wide, "string"),
        (1, 1, 5, "property"),
        (2, 0, 3 + letter, "property"),
        (2, 8 + letter, 4, "property"),
        (2, 15 + letter, 5, "string"),
        (2, 22 + letter, 4, "property"),
        (2, 29 + letter, 10, "number"),
        (2, 42 + letter, 6, "comment"),
    ]
    inner = {"utf-16": 3, "utf-8": 5}[encoding]
    lines = [(0, 0, 1, "property"), (0, 4, 3, "string"), (1, 0, inner, "string"), (2, 0, 3, "string")]
    yield 'a = """\n𝒙y\r\n"""\nb = true', [*lines, (3, 0, 1, "property"), (3, 4, 4, "keyword")]


def definitions():
    for position, found in (
        ((5, 3), part(0, 0, 5)),
        ((5, 1), part(0, 0, 5)),
        ((4, 1), part(3, 0, 5)),
        ((2, 1), part(1, 0, 5)),
        ((4, 3), part(4, 0, 5)),
    ):
        yield Place(*position), found


def completions():
    for text, position, labels, its_range in (
        (PACKAGES, (4, 0), ["features"], part(4, 0, 0)),
        ('[dep.a]\nversion = "1"\n[dep.b]\nver', (3, 3), ["version"], part(3, 0, 3)),
        ("a = \n", (0, 4), ["false", "true"], part(0, 4, 4)),
        ('"𝒙" = tr\n', (0, 9, 11), ["false", "true"], part(0, 7, 9, (9, 11))),
        ("[tool.x]\n[\n", (1, 1), ["tool.x"], part(1, 1, 1)),
        ("# a = \n", (0, 6), [], None),
        ('a = "b = "\n', (0, 9), [], None),
    ):
        yield text, Place(*position), [(label, its_range) for label in labels]


FOLDS = [(0, 1, "comment"), (4, 7, None), (8, 10, None), (11, 12, None)]


def resolved(value, encoding):
    """The same value with the positions of an encoding."""
    if isinstance(value, Place):
        return {"line": value.line, "character": value.characters[encoding]}
    if isinstance(value, dict):
        return {key: resolved(inner, encoding) for key, inner in value.items()}
    if isinstance(value, (list, tuple)):
        return type(value)(resolved(inner, encoding) for inner in value)
    return value


def cases(encoding):
    """Each text, method, params and result, with the positions of an encoding."""
    for position, hover in hovers():
        yield TEXT, "hover", resolved({"position": position}, encoding), resolved(hover, encoding)
    yield TEXT, "documentSymbol", {}, resolved(tree(), encoding)
    for text, found in tokens(encoding):
        yield text, "semanticTokens/full", {}, found
    for position, found in definitions():
        yield TABLES, "definition", resolved({"position": position}, encoding), resolved(found, encoding)
    for text, position, found in completions():
        yield text, "completion", resolved({"position": position}, encoding), resolved(found, encoding)
    for text, found in FORMATTED.items():
        yield text, "formatting", {"options": {"tabSize": 4, "insertSpaces": True}}, found
    yield BLOCKS, "foldingRange", {}, FOLDS


def decoded(data, legend):
    """Semantic tokens with their places and the names of their types (LSP 3.17, "Integer Encoding for Tokens")."""
    line, start, found = 0, 0, []
    for at in range(0, len(data), 5):
        down, right, length, kind, _ = data[at : at + 5]
        line, start = line + down, right if down else start + right
        found.append((line, start, length, legend[kind]))
    return found


def in_order(method, result, legend):
    """A result in the form that `cases` gives, but for edits, which the client applies."""
    if result is None:
        return None
    if method == "documentSymbol":
        return [{**it, "children": in_order(method, it.get("children", []), legend)} for it in result]
    if method == "semanticTokens/full":
        return decoded(result["data"], legend)
    if method == "definition":
        return result["range"]
    if method == "completion":
        return sorted((it["label"], it["textEdit"]["range"]) for it in result)
    if method == "foldingRange":
        return sorted(((it["startLine"], it["endLine"], it.get("kind")) for it in result), key=lambda it: it[:2])
    return result
