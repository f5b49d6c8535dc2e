"""The rules of types and texts for the second judge: whether params and results fit the types of LSP's meta model, and where they do not."""
import sys

from tables import CRATES

sys.path.append(str(CRATES.parent / "tools"))
from metamodel import read, without_registration

TYPES, METHODS = read()
RULES = ("WrongType", "LooseType", "EditsOverlap", "TokensNotInFives", "SelectionOutside", "RangeReversed")
EDITS = (["TextEdit"], ["TextEdit", "AnnotatedTextEdit"])
SELECTED = {it: ("range", "selectionRange") for it in ("DocumentSymbol", "CallHierarchyItem", "TypeHierarchyItem")} | {
    "LocationLink": ("targetRange", "targetSelectionRange")}
NAMES = {"boolean": "boolean", "string": "string", "integer": "integer", "uinteger": "uinteger", "decimal": "number", "null": "null", "nothing": "null"}


def is_number(value):
    return isinstance(value, (int, float)) and not isinstance(value, bool)


def is_whole(value, is_strict, least, most):
    """A number with a fraction or an exponent, or one past 64 bits, is a float: its value may be whole."""
    if not is_number(value):
        return False
    if isinstance(value, float) or not -(1 << 63) <= value < 1 << 64:
        return not is_strict
    return least <= value <= most


def named(form):
    """The forms of a type's name, and the name; a form that is no name stays."""
    return (without_registration(TYPES[form]), form) if isinstance(form, str) and form in TYPES else ([form], "")


def is_words(forms):
    return all(isinstance(it, str) and it.startswith('"') for it in forms)


class Look:
    """A look at values for one rule."""

    def __init__(self, rule):
        self.rule, self.is_strict = rule, rule == "LooseType"

    def fits(self, forms, value):
        forms = without_registration(forms)
        if is_words(forms) and len(forms) > 1:
            return isinstance(value, str) and (not self.is_strict or f'"{value}"' in forms)
        return any(self.fits_form(it, value) for it in forms)

    def fits_form(self, form, value):
        forms, name = named(form)
        if name and (len(forms) > 1 or isinstance(forms[0], str)):
            return self.fits(forms, value)
        return self.fits_word(forms[0], value) if isinstance(forms[0], str) else self.fits_parts(forms[0], name, value)

    def fits_word(self, word, value):
        if word.startswith('"'):
            return value == word[1:-1]
        if ".." in word:
            least, most = map(int, word.split("..")) if self.is_strict else (-(1 << 31), (1 << 31) - 1)
            return is_whole(value, self.is_strict, least, most)
        return {
            "any": True, "null": value is None, "nothing": value is None or not self.is_strict, "boolean": isinstance(value, bool),
            "string": isinstance(value, str), "integer": is_whole(value, self.is_strict, -(1 << 31), (1 << 31) - 1),
            "uinteger": is_whole(value, self.is_strict, 0, (1 << 31) - 1), "decimal": is_number(value),
        }[word]

    def fits_parts(self, form, name, value):
        kind, inner = form
        if not isinstance(value, list if kind == "list" else dict):
            return False
        if kind != "object":
            return all(self.fits(inner, it) for it in (value if kind == "list" else value.values())) and self.keeps_list(kind, inner, value)
        members = all(self.fits_member(*it, value, key) for key, it in inner.items())
        return members and self.keeps_object(name, value)

    def fits_member(self, forms, is_required, value, key):
        if key not in value or value[key] is None and not is_required and not self.is_strict:
            return not is_required
        return self.fits(forms, value[key])

    def keeps_list(self, kind, inner, value):
        if self.rule != "EditsOverlap" or kind != "list" or inner not in EDITS:
            return True
        spans = [span(it.get("range")) for it in value]
        return not any(overlap(one, other) for at, one in enumerate(spans) for other in spans[at + 1:])

    def keeps_object(self, name, value):
        if self.rule == "TokensNotInFives" and name == "SemanticTokens":
            return len(value["data"]) % 5 == 0
        if self.rule == "SelectionOutside" and name in SELECTED:
            whole, part = (span(value.get(key)) for key in SELECTED[name])
            return not whole or not part or whole[0] <= part[0] and part[1] <= whole[1]
        if self.rule == "RangeReversed" and name == "Range":
            found = span(value)
            return not found or found[0] <= found[1]
        if self.rule == "RangeReversed" and name == "FoldingRange":
            start, end = folded(value, "start"), folded(value, "end")
            return start[0] is None or end[0] is None or start[0] < end[0] or start[0] == end[0] and (None in start + end or start[1] <= end[1])
        return True

    def where(self, forms, value, path):
        """The innermost part that does not fit, and what is said of it."""
        forms = without_registration(forms)
        form = forms[0]
        if len(forms) > 1:
            if is_words(forms):
                return f"`{path}` is no string{' that is listed' if self.is_strict else ''}"
            for is_meant in (lambda it: Look("WrongType").fits_form(it, value), lambda it: alike(it, value) and has_members(it, value), lambda it: alike(it, value)):
                meant = [it for it in forms if is_meant(it)]
                if len(meant) == 1:
                    return self.where(meant, value, path)
            return f"`{path}` has none of its types"
        inner, name = named(form)
        if name and (len(inner) > 1 or isinstance(inner[0], str)):
            return self.where(inner, value, path)
        return self.word_at(inner[0], path) if isinstance(inner[0], str) else self.part_at(inner[0], name, value, path)

    def word_at(self, word, path):
        if word.startswith('"'):
            return f"`{path}` is not `{word[1:-1]}`"
        listed = "number that is listed" if self.is_strict else "integer"
        return f"`{path}` is no {listed if '..' in word else NAMES.get(word, 'such value')}"

    def part_at(self, form, name, value, path):
        kind, inner = form
        if not isinstance(value, list if kind == "list" else dict):
            return f"`{path}` is no {'list' if kind == 'list' else 'object'}"
        if kind == "object":
            for key, (forms, is_required) in inner.items():
                if not self.fits_member(forms, is_required, value, key):
                    return self.where(forms, value[key], f"{path}/{key}") if key in value else f"`{path}/{key}` is missing"
            return f"`{path}/data`" if self.rule == "TokensNotInFives" else f"`{path}`"
        items = enumerate(value) if kind == "list" else sorted(value.items(), key=lambda it: it[0].encode("utf-8", "surrogatepass"))
        for key, item in items:
            if not self.fits(inner, item):
                return self.where(inner, item, f"{path}/{str(key).replace('~', '~0').replace('/', '~1')}")
        return f"`{path}`"


def alike(form, value):
    inner, _ = named(form)
    return len(inner) == 1 and not isinstance(inner[0], str) and isinstance(value, list if inner[0][0] == "list" else dict)


def has_members(form, value):
    """Whether an object, or the first one of a list, has the members that its type requires."""
    kind, inner = named(form)[0][0]
    if kind != "list":
        return kind == "map" or all(key in value for key, (_, is_required) in inner.items() if is_required)
    item = named(without_registration(inner)[0])[0] if len(inner) == 1 else [""]
    if not value or len(item) != 1 or isinstance(item[0], str) or item[0][0] != "object":
        return True
    return all(isinstance(value[0], dict) and key in value[0] for key, (_, is_required) in item[0][1].items() if is_required)


def is_count(value):
    return type(value) is int and 0 <= value < 1 << 64


def place(value):
    found = [value.get(key) if isinstance(value, dict) else None for key in ("line", "character")]
    return found if all(map(is_count, found)) else None


def folded(value, end):
    """The line and the column of an end of a folding range. A column that is missing is the end of its line."""
    return [value.get(key) if is_count(value.get(key)) else None for key in (f"{end}Line", f"{end}Character")]


def span(value):
    found = [place(value.get(key)) for key in ("start", "end")] if isinstance(value, dict) else [None]
    return found if all(found) else None


def overlap(one, other):
    return bool(one and other and one[0] < other[1] and other[0] < one[1])


def part_of(way, message, asked):
    """The type of what a message carries, the value, and its path, if it is judged."""
    if "method" not in message:
        sender = "->" if way == "<-" else "<-"
        kind, receiver, _, forms = METHODS.get(asked["method"] if asked else "", ("", "", [], []))
        goes = receiver == "both" or (receiver == "server") == (sender == "->")
        has = asked and kind and goes and message.get("error") is None and "result" in message
        return ((forms if forms and forms != ["null"] else ["nothing"]), message["result"], "/result") if has else None
    _, receiver, forms, _ = METHODS.get(message["method"], ("", "", [], []))
    params = message.get("params")
    goes = receiver == "both" or (receiver == "server") == (way == "->")
    if not receiver or not goes or not (params is None or isinstance(params, dict)):
        return None
    return forms or ["any"], {} if params is None else params, "/params"


def faults(way, message, asked):
    """The rules that a message breaks, and what is said of where."""
    part = part_of(way, message, asked)
    if not part:
        return []
    forms, value, path = part
    if not Look("WrongType").fits(forms, value):
        return [("WrongType", Look("WrongType").where(forms, value, path))]
    return [(rule, Look(rule).where(forms, value, path)) for rule in RULES[1:] if not Look(rule).fits(forms, value)]


class Folds:
    """The texts of the open documents, and whether folding ranges have lines that their document does not have (LSP 3.17, "FoldingRange")."""

    def __init__(self):
        self.texts, self.asked, self.is_synced = {}, {}, False

    def fault(self, message, asked):
        """The first line that is outside. It is not known if the document changed since the request."""
        uri, changed = self.asked.get(asked["place"], (None, None)) if asked else (None, None)
        text, place = self.texts.get(uri, (None, None))
        result = message.get("result")
        if not self.is_synced or text is None or place != changed or message.get("error") is not None or not isinstance(result, list):
            return None
        outside = (
            f"`/result/{at}/{key}`" for at, fold in enumerate(result) for key in ("startLine", "endLine")
            if isinstance(fold, dict) and is_count(fold.get(key)) and fold[key] > text.count("\n"))
        return next(outside, None)

    def keep(self, place, way, message, asked):
        params = message.get("params")
        uri = params["textDocument"].get("uri") if isinstance(params, dict) and isinstance(params.get("textDocument"), dict) else None
        if "method" not in message:
            if asked and asked["method"] == "initialize" and asked["way"] == "->":
                self.is_synced = wants_changes(message.get("result"))
            self.asked.pop(asked["place"] if asked else None, None)
        elif way == "->" and isinstance(uri, str) and "id" in message and message["method"] == "textDocument/foldingRange" and uri in self.texts:
            self.asked[place] = uri, self.texts[uri][1]
        elif way == "->" and isinstance(uri, str) and "id" not in message:
            self.keep_document(place, message["method"], params, uri)

    def keep_document(self, place, method, params, uri):
        match method:
            case "textDocument/didOpen":
                self.texts[uri] = whole(params["textDocument"].get("text")), place
            case "textDocument/didClose":
                self.texts.pop(uri, None)
            case "textDocument/didChange":
                self.is_synced = True
                if uri in self.texts:
                    self.texts[uri] = changed_text(self.texts[uri][0], params.get("contentChanges")), place


def wants_changes(result):
    """Whether a server wants to be notified of changes (LSP 3.17, "TextDocumentSyncKind")."""
    capabilities = result.get("capabilities") if isinstance(result, dict) else None
    sync = capabilities.get("textDocumentSync") if isinstance(capabilities, dict) else None
    sync = sync.get("change") if isinstance(sync, dict) else sync
    return type(sync) is int and sync in (1, 2)


def whole(text):
    """A text, unless its lines are not known: after a lone carriage return a later edit may put a line feed."""
    return text if isinstance(text, str) and "\r" not in text.replace("\r\n", "") else None


def changed_text(text, changes):
    """The text after changes, one after the other."""
    if not isinstance(changes, list):
        return None
    for change in changes:
        given = whole(change.get("text")) if isinstance(change, dict) else None
        if not isinstance(change, dict) or "range" not in change:
            text = given
            continue
        found = span(change["range"])
        is_known = text is not None and given is not None and found and found[0][0] <= found[1][0]
        text = text[:offset(text, found[0])] + given + text[offset(text, found[1]):] if is_known else None
    return text


def offset(text, position):
    """Where a position stands in a text. Past the end of its line it is that end, and past the last line the end of the text."""
    lines = text.split("\n")
    if position[0] >= len(lines):
        return len(text)
    line = lines[position[0]].removesuffix("\r" if position[0] + 1 < len(lines) else "")
    units, at = 0, 0
    while at < len(line) and units < position[1]:
        units, at = units + (2 if ord(line[at]) > 0xFFFF else 1), at + 1
    return sum(len(it) + 1 for it in lines[:position[0]]) + at
