"""A model of open documents: what has to come of the notifications of crates/test_rows, and the rows that tell of them.

The model knows nothing of bytes: a text is a list of code points, a line a list of code points with its end, and a column a sum
of what each code point takes in the encoding. It follows LSP 3.17, "Text Document Synchronization" and "Position", and what
docs/DOCUMENTS.md says where they are silent; it was never made to follow the program.
"""
import json
import random
import re
from urllib.parse import unquote_to_bytes

from rules import is_whole, meaning
from tables import at, misspelt, table_of

UNITS = {
    "utf-8": lambda c: len(c.encode("utf-8")),
    "utf-16": lambda c: len(c.encode("utf-16-le")) // 2,
    "utf-32": lambda c: 1,
}
GREATEST = 4294967295


# Texts.


class Counting:
    """How a client counts: in the units of an encoding, and what ends a line."""

    def __init__(self, encoding, standard):
        self.units, self.standard = UNITS[encoding], standard

    def lines(self, text):
        """The lines of a text, each as what stands before its end, and its end: what LSP 3.17 lists, or a line feed alone."""
        parts = re.split(r"(\r\n|\n|\r)" if self.standard else r"(\n)", text)
        found = list(zip(parts[::2], [*parts[1::2], ""]))
        # A second model: Python ends lines of bytes where the standard does, and splits at one letter.
        own = (text + "x").encode()
        own = own.splitlines() if self.standard else own.split(b"\n")
        if b"|".join(own) != ("|".join(row for row, _ in found) + "x").encode():
            raise SystemExit(f"other lines: {text!r}")
        return found


def place(text, position, counting):
    """How many code points stand before a position."""
    line, character = position
    rows = counting.lines(text)
    if line >= len(rows):
        return len(text)
    before = sum(len(a) + len(b) for a, b in rows[:line])
    used = 0
    for letter in rows[line][0]:
        used += counting.units(letter)
        if used > character:
            break
        before += 1
    return before


def position(text, index, counting):
    """The position of the place before a code point."""
    start = 0
    for number, (row, end) in enumerate(counting.lines(text)):
        if index < start + len(row) + len(end) or end == "":
            return number, sum(counting.units(c) for c in row[: index - start])
        start += len(row) + len(end)


def is_past(text, position, counting):
    """Whether a position lies past its line's end, or past the place behind the last line, which LSP 3.17 takes for these ends."""
    line, character = position
    rows = counting.lines(text)
    if line >= len(rows):
        return position != (len(rows), 0)
    return character > sum(counting.units(it) for it in rows[line][0])


def edited(text, span, new, counting):
    if span is None:
        return new
    a, b = sorted(place(text, it, counting) for it in span)
    return text[:a] + new + text[b:]


# A server's documents.

METHODS = ["textDocument/didOpen", "textDocument/didChange", "textDocument/didSave", "textDocument/didClose"]


def shown_version(version):
    return "None" if version is None else f"Some({version})"


def whole(value, least, most):
    return isinstance(value, int) and not isinstance(value, bool) and least <= value <= most


def shape(condition):
    if not condition:
        raise ValueError


def text_member(value, name):
    shape(isinstance(value, dict) and isinstance(value.get(name), str))
    return value[name]


def position_member(value, name):
    shape(isinstance(value, dict) and isinstance(value.get(name), dict))
    line, character = value[name].get("line"), value[name].get("character")
    if whole(line, -(2**63), -1):
        # a negative line counts as 0 (LSP 3.17, "Position")
        line = 0
    shape(all(whole(it, 0, GREATEST) for it in (line, character)))
    return line, character


def span_of(change):
    given = change.get("range")
    return None if given is None else (position_member(given, "start"), position_member(given, "end"))


def is_whole_text(change):
    return isinstance(change, dict) and isinstance(change.get("text"), str) and change.get("range") is None


def deciding(changes):
    """The changes from the last whole text on: it takes the place of what stands before it, whether that can be read or not."""
    return changes[max((at for at, change in enumerate(changes) if is_whole_text(change)), default=0) :]


def agreed(params):
    """The encoding for what a client offers in `initialize`: the first that is known, or the one that each client has to know."""
    value = params
    for name in ["capabilities", "general", "positionEncodings"]:
        value = value.get(name) if isinstance(value, dict) else None
    offered = value if isinstance(value, list) else []
    return next((it for it in offered if isinstance(it, str) and it in UNITS), "utf-16")


def version_member(item):
    """A version. None may be given, and any other value is none (docs/DOCUMENTS.md)."""
    return item["version"] if is_whole(item.get("version")) else None


def is_unread(text):
    """Whether a body is no JSON, which one with half of a surrogate pair is neither. Any other row of a document has to have a method."""
    return meaning(text.encode()) in (8, 9)


def path_of(uri):
    """The path that a `file:` URI names (RFC 8089), and why it names none. An escape is its byte (RFC 3986, section 2.1)."""
    found = re.fullmatch("file://(?:localhost)?(/.*)", uri)
    if not found:
        return None, "Host" if uri.startswith("file://") else "NotFile"
    if "?" in found[1] or "#" in found[1]:
        return None, "Query"
    if re.search("%(?![0-9A-Fa-f]{2})", found[1]):
        return None, "Escape"
    path = unquote_to_bytes(found[1])
    try:
        return (None, "Nul") if b"\0" in path else (path.decode(), None)
    except UnicodeDecodeError:
        return None, "NotUtf8"


class Documents:
    """What a server holds, and what it answers. A document whose text is lost has None for its text and its version.

    `saved` has the text of a save that differed from the document's, until something is told of that. `brought` has the documents whose text
    a save brought back, and whether a change came since.
    """

    def __init__(self, encoding, include_text=True, standard=False, applies_late=False):
        self.encoding, self.include_text, self.applies_late = encoding, include_text, applies_late
        self.counting = Counting(encoding, standard)
        # Of each document its version, its language and its text. The version of one that is lost for want of order stays.
        self.open = {}
        self.saved, self.brought = {}, {}
        self.seen = []
        self.copies = ""

    def answers(self, text):
        """What comes of a row."""
        if is_unread(text):
            return [self.unread()]
        message = json.loads(text)
        method, params = message["method"], message.get("params")
        if method == "initialize":
            asked = params if isinstance(params, dict) else {}
            self.__init__(agreed(params), asked.get("includeText") is not False, asked.get("standard") is True, asked.get("makesLate") is True)
            return [self.encoding]
        if method == "keep":
            # Copies stay as they are, whatever becomes of the documents.
            _, _, self.copies = self.known().partition("\t")
            self.copies = self.copies and "\t" + self.copies
            return [str(self.copies.count("\t"))]
        if method == "kept":
            return [self.copies]
        if method == "path":
            return [self.at_path(params)]
        if method == "known":
            return [self.known()]
        if method == "place":
            return [self.place(params)]
        if method == "doubtful":
            return [" ".join(["doubtful", *(it for it in self.seen if it in self.brought)])]
        if method in ("long", "often"):
            return [self.length(method, params)]
        return [self.row(method, params)]

    def length(self, method, params):
        """What comes of a call about a great text or many changes, and how long the text is then, in bytes and lines."""
        uri, text, remark = params["uri"], params["text"] * params["count"], "None"
        if method == "often":
            _, language, before = self.open[uri]
            self.open[uri] = (None, language, text + before)
        else:
            remark = "Some(OpenAlready)" if uri in self.open else "None"
            self.open[uri] = (None, "", text)
        text = self.open[uri][2]
        return f"{remark} {len(text.encode())} {len(self.counting.lines(text))}"

    def unread(self):
        """A body that is no message may have told of any document."""
        for it in self.open:
            self.lose(it)
        return "\t".join(["unread"] + [self.shown(it) for it in self.seen])

    def known(self):
        """The documents whose text is known, by the bytes of their URIs, and then their copies."""
        known = sorted((it for it in self.open if self.is_known(it)), key=lambda it: it.encode())
        named = [f" {it} {shown_version(self.open[it][0])}" for it in known]
        copies = [f"\t{it} {self.open[it][1]} {shown_version(self.open[it][0])} {json.dumps(self.open[it][2], ensure_ascii=False)}" for it in known]
        return "known" + "".join(named + copies)

    def at_path(self, path):
        """The first document whose URI names a path, and its version."""
        named = [it for it in self.open if self.is_known(it) and path_of(it)[0] == path]
        if not named:
            return "no document"
        uri = min(named, key=lambda it: it.encode())
        return f"{uri} {shown_version(self.open[uri][0])}"

    def place(self, params):
        """Where a position is, in bytes of UTF-8, the range from there to the text's end, the position's line, and the same range in a copy."""
        uri = params["uri"]
        if not self.is_known(uri):
            return "no place"
        text = self.open[uri][2]
        at = position_member(params, "position")
        index = place(text, at, self.counting)
        start, end = (position(text, it, self.counting) for it in (index, len(text)))
        written = {name: dict(zip(("line", "character"), it)) for name, it in (("start", start), ("end", end))}
        # A line without its end, which `\r\n` is also where positions count its `\r`.
        rows = re.split("\r\n|\n|\r" if self.counting.standard else "\r\n|\n", text)
        line = rows[at[0]] if at[0] < len(rows) else None
        span = json.dumps(written, separators=(",", ":"), sort_keys=True)
        return f"{len(text[:index].encode())} {span} {json.dumps(line, ensure_ascii=False)} {span}"

    def row(self, method, params):
        if method not in METHODS:
            return "\t".join(["no notification of documents"] + [self.shown(it) for it in self.seen])
        known = {uri for uri in self.open if self.is_known(uri)}
        uri = self.named(params)
        try:
            shape(uri is not None)
            answer = self.hears(method, uri, params)
            if answer.startswith("made") and uri not in self.seen:
                self.seen.append(uri)
        except ValueError:
            answer = "params of another shape" if uri is None else f"{uri}: params of another shape"
            if uri is not None:
                self.lose(uri)
            elif method != "textDocument/didSave":
                for it in self.open:
                    self.lose(it)
        if any(it in self.open and not self.is_known(it) for it in known):
            answer += ", its text is lost"
        return "\t".join([answer] + [self.shown(it) for it in self.seen])

    def named(self, params):
        """The URI that params name, if any."""
        item = params.get("textDocument") if isinstance(params, dict) else None
        uri = item.get("uri") if isinstance(item, dict) else None
        return uri if isinstance(uri, str) else None

    def is_known(self, uri):
        return uri in self.open and self.open[uri][2] is not None

    def lose(self, uri):
        """What the client told was missed: only the language is known for sure. A text that is lost already stays as it is."""
        if self.is_known(uri):
            self.settle(uri)
            self.open[uri] = (None, self.open[uri][1], None)

    def settle(self, uri):
        """Nothing is doubtful of what is held."""
        self.saved.pop(uri, None)
        self.brought.pop(uri, None)

    def hears(self, method, uri, params):
        """What is answered. Params of another shape raise."""
        if method == "textDocument/didOpen":
            return self.hears_open(uri, params["textDocument"])
        if method == "textDocument/didChange":
            return self.hears_change(uri, params)
        if uri not in self.open:
            return f"{uri}: the document is not open"
        if method == "textDocument/didClose":
            self.settle(uri)
            del self.open[uri]
        elif isinstance(params.get("text"), str) and self.include_text:
            return f"made {uri}{self.hears_saved(uri, params['text'])}"
        return f"made {uri}"

    def hears_saved(self, uri, text):
        """What is said of a text that was asked for. One that differs is compared once more is told: Kate saves before it tells its changes."""
        if not self.is_known(uri):
            self.open[uri] = (None, self.open[uri][1], text)
            self.brought[uri] = "unchanged"
            return ""
        before = self.saved.pop(uri, None)
        if self.open[uri][2] != text:
            self.saved[uri] = text
        return "" if before in (None, text) else ": the saved text is another one"

    def hears_open(self, uri, item):
        language = item["languageId"] if isinstance(item.get("languageId"), str) else ""
        version, text = version_member(item), text_member(item, "text")
        answer = f"made {uri}: the document was open already" if uri in self.open else f"made {uri}"
        self.settle(uri)
        self.open[uri] = (version, language, text)
        return answer

    def hears_change(self, uri, params):
        version, changes = version_member(params["textDocument"]), params.get("contentChanges")
        shape(isinstance(changes, list))
        changes = [(text_member(change, "text"), span_of(change)) for change in deciding(changes)]
        is_open, is_whole = uri in self.open, any(span is None for _, span in changes)
        if not is_open and not is_whole:
            return f"{uri}: the document is not open"
        before, language, text = self.open.get(uri, (None, "", None))
        if is_open and not is_whole and not self.applies_late and None not in (version, before) and version < before:
            # Ranges of a lower version come behind others that were made without them. A whole text needs no other.
            self.settle(uri)
            self.open[uri] = (before, language, None)
            return f"{uri}: changes came out of order"
        if text is None and not is_whole:
            return f"{uri}: the document is out of step"
        past, is_known = False, text is not None
        for new, span in changes:
            past = past or is_known and span is not None and any(is_past(text, it, self.counting) for it in span)
            text = new if span is None else text if text is None else edited(text, span, new, self.counting)
        self.open[uri] = (version, language, text)
        if not is_open:
            return f"made {uri}: the document was not open"
        saved, brought = self.saved.pop(uri, None), self.brought.get(uri)
        if is_whole:
            self.settle(uri)
        elif brought:
            self.brought[uri] = "changed"
        if past:
            return f"made {uri}: a position is past the end"
        if brought == "unchanged" and not is_whole:
            return f"made {uri}: a save brought the text back"
        if saved not in (None, text) and not is_whole:
            return f"made {uri}: the saved text is another one"
        is_higher = None in (version, before) or version > before
        return f"made {uri}" if is_higher else f"made {uri}: the version is not higher"

    def shown(self, uri):
        if uri not in self.open:
            return f"{uri} -"
        if not self.is_known(uri):
            return f"{uri} ?"
        version, language, text = self.open[uri]
        places = [position(text, i, self.counting) for i in range(len(text) + 1)]
        written = json.dumps(text, ensure_ascii=False)
        return f"{uri} {shown_version(version)} {language} {written} {len(self.counting.lines(text))} " + " ".join("%d:%d" % it for it in places)


# Rows.


def values(text):
    """The values that follow a word of the table: texts without a space, and JSON."""
    while text:
        value = text.partition(" ")[0]
        end = len(value)
        if text[0] in '"[{-0123456789' or value == "null":
            value, end = json.JSONDecoder().raw_decode(text)
        yield value
        text = text[end:].removeprefix(" ")


def change_of(item):
    """A new text, or the line and character of the start and of the end of a range, and the text that takes its place."""
    if isinstance(item, str):
        return {"text": item}
    *places, new = item
    start, end = ({"line": line, "character": character} for line, character in (places[:2], places[2:]))
    return {"range": {"start": start, "end": end}, "text": new}


def offered(encoding, **more):
    return {"capabilities": {"general": {"positionEncodings": [encoding]}}, **more}


class Table:
    """The rows that these calls make. A line of the table `documents` has one of `WORDS` and its values, or a body."""

    WORDS = "tell begin offer open change save close look example".split()

    def __init__(self):
        self.asked, self.documents = [], Documents("utf-16")

    def take(self, line):
        word, _, rest = line.partition(" ")
        if word == "body":
            self.lose(rest)
        elif word in self.WORDS:
            getattr(self, word)(*values(rest))
        else:
            misspelt(f"no line begins with `{word}`, but with one of: {', '.join(['body', *self.WORDS])}")

    def tell(self, method, params=None):
        self.asked.append(json.dumps({"method": method, "params": params}, ensure_ascii=False, separators=(",", ":")))
        self.documents.answers(self.asked[-1])

    def begin(self, encoding, *flags):
        self.offer(encoding, offered(encoding, **dict.fromkeys(flags, True)))

    def offer(self, encoding, params):
        """What a client offers in `initialize`, and the encoding that has to be agreed on."""
        self.tell("initialize", params)
        if self.documents.encoding != encoding:
            misspelt(f"another encoding than {encoding}: {params}")

    def open(self, uri, version, text, language="plain"):
        self.tell("textDocument/didOpen", {"textDocument": {"uri": uri, "languageId": language, "version": version, "text": text}})

    def change(self, uri, version, changes):
        item = {"uri": uri, "version": version}
        self.tell("textDocument/didChange", {"textDocument": item, "contentChanges": [*map(change_of, changes)]})

    def lose(self, text):
        """A body that is no message."""
        if not is_unread(text):
            misspelt(f"a message: {text}")
        self.asked.append(text)
        self.documents.answers(text)

    def save(self, uri, more=None):
        self.tell("textDocument/didSave", {"textDocument": {"uri": uri}, **(more or {})})

    def close(self, uri):
        self.tell("textDocument/didClose", {"textDocument": {"uri": uri}})

    def look(self, uri, *positions):
        """At what is known, and at these positions of a document."""
        self.tell("known")
        for line, character in positions:
            self.tell("place", {"uri": uri, "position": {"line": line, "character": character}})

    def example(self, encoding, text, changes=()):
        """A text and its changes, in both ways of ending lines where they differ."""
        for flags in [[], ["standard"]][: 1 + ("\\r" in json.dumps([text, changes]))]:
            self.begin(encoding, *flags)
            self.open("u", 1, text)
            if changes:
                self.change("u", 2, changes)
            self.look("u", (0, 2), (0, 3), (1, 1), (GREATEST, 0))


LETTERS = ["a", "b", " ", "\n", "\r", "\r\n", "\n", "\u00e9", "\u00df", "e\u0301", "\u6f22", "\uffff", "\U0001F600",
           "\U0001F468\u200D\U0001F469", "\U0010FFFF", "\t", "\\", "\"", "\u2028", "\x85", "\x0b", "\x00"]
URIS = ["file:///a", "file:///b", "file:///a%20b", "untitled:1"]


def some_text(source, most):
    return "".join(source.choice(LETTERS) for _ in range(source.randrange(most)))


def some_position(source, text, counting):
    if source.random() < 0.6:
        return position(text, source.randrange(len(text) + 1), counting)
    number = source.randrange(len(counting.lines(text)) + 2)
    if source.random() < 0.05:
        number = GREATEST
    return number, source.choice([0, 1, 2, 3, 4, 5, 7, 20, GREATEST])


def some_changes(source, text, counting):
    """Changes of one notification, each made for what the one before it leaves."""
    changes = []
    for _ in range(source.choice([1, 1, 1, 2, 3, 5])):
        is_whole = source.random() >= 0.95
        span = None if is_whole else [some_position(source, text, counting) for _ in range(2)]
        new = some_text(source, 5)
        changes.append(new if is_whole else [*span[0], *span[1], new])
        text = edited(text, span, new, counting)
    return changes


def session(table, source, count):
    """Opens, changes, saves and closes of several documents, one in eight of them wrong."""
    encoding = source.choice(["utf-16", "utf-16", "utf-8", "utf-32"])
    table.offer(encoding, offered(encoding, standard=source.random() < 0.5, makesLate=source.random() < 0.5))
    counting = table.documents.counting
    for _ in range(count):
        uri = source.choice(URIS)
        held = table.documents.open.get(uri)
        if source.random() < 0.1:
            text = held[2] if held else None
            table.look(uri, some_position(source, text or "", counting))
        kind = source.random()
        if held and source.random() < 0.06:
            name = uri if source.random() < 0.8 else None
            table.tell("textDocument/didChange", {"textDocument": {"uri": name, "version": 1}, "contentChanges": [{"text": None}]})
        elif held and held[2] is None and source.random() < 0.4:
            if source.random() < 0.5:
                table.save(uri, {"text": some_text(source, 14)})
            else:
                table.change(uri, 4, [some_text(source, 14), *some_changes(source, "", counting)])
        elif (held is None) == (source.random() < 0.9):
            table.open(uri, text=some_text(source, 14), version=source.choice([None, -2, -1, 0, 1, 2, 3]))
        elif kind < 0.08:
            table.save(uri)
        elif kind < 0.2:
            table.close(uri)
        else:
            version, _, text = held or (0, "", "")
            next_version = None if source.random() < 0.05 else (version or 0) + source.choice([1, 1, 1, 2, 0, -1])
            table.change(uri, next_version, some_changes(source, text or "", counting))


def saves(table, source, count):
    """Changes and saves of one document by a client that may save before it tells its last changes, and of which something may be missed."""
    encoding = source.choice(list(UNITS))
    table.offer(encoding, offered(encoding, standard=source.random() < 0.5, includeText=source.random() < 0.8))
    counting, text, version = table.documents.counting, some_text(source, 9), 1
    table.open("file:///a", version, text)
    for _ in range(count):
        changes = some_changes(source, text, counting)
        after = text
        for change in map(change_of, changes):
            after = edited(after, span_of(change), change["text"], counting)
        version += source.choice([1, 1, 1, 1, 0, -1])
        early, missed = source.random() < 0.4, source.random() < 0.15
        if missed:
            table.tell("textDocument/didChange", {"textDocument": {"uri": "file:///a", "version": version}, "contentChanges": [{"text": None}]})
        for _ in range(source.choice([0, 1, 1, 2]) if early else 0):
            table.save("file:///a", {"text": source.choice([after, after, after, text + "+"])})
        if not missed and source.random() < 0.1:
            # What can't be read stands before a whole text, or behind it.
            whole, none = {"text": after}, {"text": "x", "range": 1}
            listed = source.choice([[none, whole], [none, whole, none], [whole, whole]])
            table.tell("textDocument/didChange", {"textDocument": {"uri": "file:///a", "version": version}, "contentChanges": listed})
        elif not missed:
            table.change("file:///a", version, changes)
        text = after
        if not early and source.random() < 0.5:
            table.save("file:///a", source.choice([{"text": text}, {"text": text}, {"text": text + "-"}, {}]))
        if source.random() < 0.2:
            table.tell("doubtful")


def rows(seed, sessions):
    table, source = Table(), random.Random(seed)
    for where, line in table_of("documents"):
        with at(where):
            table.take(line)
    for _ in range(sessions):
        session(table, source, 24)
    for _ in range(sessions // 2):
        saves(table, source, 24)
    return [f"document {it}" for it in table.asked]
