"""Edits that come faster than `example_toml` checks. The client keeps each text itself.

The problems that the server publishes for a version are those of its text. No problems of an older version follow them, and those of the last
version come last. Once a version was replaced and a later request was answered, no problems of that version arrive. A closed document has no
problems, and gets none. A request whose id is the URI of a document, which is the key of the document's check, gets its reply. The edits come
from a fixed seed.
"""
import random
from functools import cache
from typing import NamedTuple

from lsp import expect
from toml_session import ERROR, none, place, shown_by
from toml_texts import is_valid

METHOD_NOT_FOUND = {"code": -32601, "message": "method not found"}
DOCUMENTS = 5
EDITS = 200
# The lines of a document, each of so many letters. Edits reach as far as the last lines.
LINES, REACHED = 1000, 40
LINE = "# alpha\n"


def units(text):
    """How many units of UTF-16 a text has (LSP 3.17, "PositionEncodingKind")."""
    return len(text.encode("utf-16-le")) // 2


def position(text, offset):
    line = text.count("\n", 0, offset)
    return place(line, units(text[text.rfind("\n", 0, offset) + 1 : offset]))


is_valid_line = cache(is_valid)


def wrong_lines(text):
    """The lines that have an error, if no key and no bracket is in the text: then each line is valid or not for itself."""
    return [number for number, line in enumerate(text.split("\n")) if not is_valid_line(line.removesuffix("\r"))]


class Kind(NamedTuple):
    """The last lines that a document may have, the pieces that edits put there, what is wrong with a text, and what the lines with problems say
    of that."""

    ends: list
    pieces: list
    wrong: object
    seen: object


# A comment may not have a control character, and a bare key needs a value (TOML 1.0, "Comment", "Keys"). So the problems of a version tell
# which it is.
COMMENTS = Kind(
    ["# all of it \x7f\n", "# all\n\n", "\x7f\n#\n"],
    ["\x7f", "#", "\n", "# 𝒙\x7f\n", "ß", "\r\n", "# all\n", ""],
    wrong_lines,
    lambda lines: lines,
)
KEYS = Kind(
    ["a = b = 1\n", "a = 1\nb = 2\n", "[t]\n"],
    ["=", "a = 1", "\n", '"𝒙" = 1\n', "ß", "\r\n", "[t]\n", '"', ""],
    lambda text: not is_valid(text),
    lambda lines: lines != [],
)


class Document:
    """A document of the client, with what is wrong with each of its versions."""

    def __init__(self, uri, kind):
        self.uri, self.kind, self.version = uri, kind, 0
        self.text = LINE * LINES + kind.ends[0]
        self.wrong = {0: kind.wrong(self.text)}
        # The oldest version of which problems may still come, and the last of which some came.
        self.oldest, self.shown, self.is_closed = 0, None, False

    def edit(self, chance):
        """An edit near the end of the text, where no line is cut between `\\r` and `\\n`, or of all last lines: its change."""
        start = chance.randrange(len(self.text) - 40, len(self.text) + 1)
        end = chance.randrange(start, min(start + 6, len(self.text)) + 1)
        new = chance.choice(self.kind.pieces)
        if "\r" in self.text[max(0, start - 1) : end + 1]:
            start = end = len(self.text)
        if chance.randrange(4) == 0:
            start, end, new = len(LINE) * (LINES - REACHED), len(self.text), LINE * REACHED + chance.choice(self.kind.ends)
        change = {"range": {"start": position(self.text, start), "end": position(self.text, end)}, "text": new}
        self.text = self.text[:start] + new + self.text[end:]
        self.version += 1
        self.wrong[self.version] = self.kind.wrong(self.text)
        return change

    def took(self, problems):
        """Problems of this document came. Without a version they are those of a closed one: none."""
        expect("whether problems come of a closed document", self.is_closed, False)
        if problems.version is None:
            expect("the problems of a closed document", problems, none(self.uri))
            self.is_closed = True
            return
        expect("whether an older version follows", self.shown is None or problems.version >= self.shown, True)
        expect("whether the version is of a text that the server holds", problems.version >= self.oldest, True)
        expect("the severities", {severity for severity, _ in problems.marks} <= {ERROR}, True)
        expect("what is wrong with a version", self.kind.seen([line for _, line in problems.marks]), self.wrong[problems.version])
        self.shown = problems.version


def receive(session, documents):
    """The next message. Problems are looked at."""
    message = session.client.message()
    if "id" not in message:
        problems = shown_by(message)
        documents[problems.uri].took(problems)
    return message


def is_answered(session, documents, request):
    """A request under this id has its reply, and so all that was sent before it was read."""
    session.client.send(id=request, method="demo/unknown", params={})
    while "id" not in (reply := receive(session, documents)):
        pass
    expect("the reply", reply, {"jsonrpc": "2.0", "id": request, "error": METHOD_NOT_FOUND})


def edits(session, document, chance):
    changes = [document.edit(chance)]
    session.change(document.version, *changes, uri=document.uri)


def types_fast(session, chance, kind):
    """Edits of all documents, mixed, and now and then a request, whose id may be the name of a key. Then the problems of the last versions."""
    uris = [f"file:///{number}.toml" for number in range(DOCUMENTS)]
    documents = {uri: Document(uri, kind) for uri in uris}
    for uri, document in documents.items():
        session.open(document.text, 0, uri)
    for number in range(EDITS):
        edits(session, documents[chance.choice(uris)], chance)
        if chance.randrange(20) == 0:
            is_answered(session, documents, chance.choice([uris[0], number]))
            for document in documents.values():
                document.oldest = document.version
    while any(document.shown != document.version for document in documents.values()):
        receive(session, documents)
    return documents


def check_edits(session):
    chance = random.Random(20261127)
    for kind in [COMMENTS, KEYS, COMMENTS, KEYS]:
        documents = types_fast(session, chance, kind)
        versions = [bool(wrong) for document in documents.values() for wrong in document.wrong.values()]
        print(f"{EDITS} edits of {DOCUMENTS} documents, {sum(versions)} of {len(versions)} versions wrong: the last problems are those of the last texts")
        for document in documents.values():
            edits(session, document, chance)
            session.close(document.uri)
            while not document.is_closed:
                receive(session, documents)
            is_answered(session, documents, document.uri)
        print("closed documents have no problems, and get none")
