"""What has to come of values that are read and written by the types of `lsp_types`. The names and kinds of members come from the tables of
the types, which `tools/types --check` compares with LSP's meta model. What they mean for a value follows here from LSP 3.17, and LSP's meta
model judges the rows once more (`unlike`). Nothing here calls a library of this repository.

A row is `typed NAME VALUE`. The value is read by that type and written again, so what comes is the value with the members of the type
alone, without those that are null, or `refused` if the standard allows no such value."""
import json
import re
import sys
from pathlib import Path
from urllib.parse import quote

sys.path.append(str(Path(__file__).resolve().parent.parent))
import metamodel
from documents import Counting, agreed, path_of, place
from members import declared
from rules import NOT_FOUND, is_id, is_whole, misfits_of, ordered
from tables import at, table_of


class Misfit(ValueError):
    pass


def fits(condition):
    if not condition:
        raise Misfit


class Reader:
    """Reads a value of a type, or raises `Misfit`. `fitting` gives a value of the type for a member with this key, and `is_kept`
    says whether such a member is always written."""

    def __init__(self, read, fitting=None, is_kept=False):
        self.read, self.is_kept = read, is_kept
        self.fitting = fitting or (lambda key: next(it for it in [key, True, 1, "markdown"] if is_fit(read, it)))

    def __call__(self, value):
        return self.read(value)


def kind(is_right, fitting=None):
    """The values that this is true of, each kept as it is."""

    def read(value):
        fits(is_right(value))
        return value

    return Reader(read, fitting)


def is_number(value):
    return isinstance(value, int) and not isinstance(value, bool)


def among(first, last):
    """The whole numbers from the first to the last."""
    return kind(lambda value: is_number(value) and first <= value <= last)


TEXT = kind(lambda value: isinstance(value, str))
TRUTH = kind(lambda value: isinstance(value, bool))
INTEGER = kind(is_whole)
# `uinteger` goes to 2^31 - 1 by the standard. docs/DOCUMENTS.md says that a number up to 2^32 - 1 is read.
UNSIGNED = among(0, 2**32 - 1)
NUMBER_OR_TEXT = kind(is_id)
ANY = kind(lambda value: True)
# A line. A negative one counts as 0 (LSP 3.17, "Position").
LINE = Reader(lambda value: max(0, among(-(2**63), 2**32 - 1)(value)))
# A number with a fraction, as JSON writes it.
DECIMAL = Reader(lambda value: float(kind(lambda it: isinstance(it, float) or is_number(it))(value)), lambda key: 0.5)
# A text that only informs. One that does not fit is as if it were the empty one (docs/TYPES.md).
TEXT_OR_EMPTY = Reader(lambda value: value if isinstance(value, str) else "", is_kept=True)


def named(*names):
    return kind(lambda value: value in names, lambda key: names[0])


def items(read, value):
    fits(isinstance(value, list))
    return [read_as(read, it) for it in value]


def some(read):
    """A list."""
    return Reader(lambda value: items(read, value), lambda key: [sample(read, key)])


def each(read):
    """An object with a value for each name."""

    def read_all(value):
        fits(isinstance(value, dict))
        return {name: read_as(read, it) for name, it in value.items()}

    return Reader(read_all, lambda key: {"file:///a": sample(read, key)})


def nullable(read):
    """A member that is always written. The library also takes it as null if it is missing."""
    return Reader(lambda value: None if value is None else read_as(read, value), lambda key: sample(read, key), is_kept=True)


def if_fits(read):
    """A member that only informs. One that does not fit is as if it were missing (docs/TYPES.md)."""

    def or_none(value):
        try:
            return None if value is None else read_as(read, value)
        except Misfit:
            return None

    return Reader(or_none, lambda key: sample(read, key))


def those_that_fit(read):
    """A list, without the items that do not fit (docs/TYPES.md)."""
    return Reader(lambda value: [it for it in items(if_fits(read), value) if it is not None], lambda key: [sample(read, key)])


def offsets(value):
    """A list of two offsets (LSP 3.17, "ParameterInformation")."""
    fits(isinstance(value, list) and len(value) == 2)
    return items(UNSIGNED, value)


# Symbols inside another, a list that is always written.
CHILDREN = Reader(lambda value: items("DocumentSymbol", [] if value is None else value), lambda key: [], is_kept=True)


@Reader
def offer(value):
    """Something that a server offers, by a boolean or by options, of which nothing is kept (LSP 3.17, "ServerCapabilities")."""
    fits(isinstance(value, (bool, dict)))
    return value is not False


def options(how, inside=None):
    """What a server offers by options. `true` has none set, and `false` offers nothing. If they may be a number, it is one of their members."""

    def read(value):
        if inside is not None:
            return read_as(how, {inside: value} if is_number(value) else value)
        return None if value is False else read_as(how, {} if value is True else value)

    return Reader(read, lambda key: sample(how, key))


@Reader
def progress(value):
    """LSP 3.17, "Work Done Progress": what its `kind` says."""
    fits(isinstance(value, dict) and value.get("kind") in ("begin", "report", "end"))
    return read_as(f"WorkDoneProgress{value['kind'].capitalize()}", value)


# The types that stand in no table: those of a place and of a change, and one of the program of rows.
BY_HAND = {
    "Position": {"line": LINE, "character": UNSIGNED},
    "Range": {"start": "Position", "end": "Position"},
    "ContentChange": {"range?": "Range", "text": TEXT},
    "Note": {"range": "Range", "text": TEXT},
}
PLAINLY = {
    "String": TEXT, "bool": TRUTH, "u32": UNSIGNED, "i32": INTEGER, "f64": DECIMAL, "Value": ANY, "T": progress,
    "NumberOrString": NUMBER_OR_TEXT, "MarkupKind": named("plaintext", "markdown"),
    "LabelOffsets": Reader(offsets, lambda key: [2, 5]),
}
DECLARED = declared()[0]


def how_of(kind):
    """How a value of this type of the tables is read."""
    outer = re.fullmatch(r"(Option|Box|Vec|BTreeMap)<(?:String, )?(.*)>", kind)
    if outer:
        inner = how_of(outer[2])
        return {"Option": nullable, "Vec": some, "BTreeMap": each}.get(outer[1], lambda it: it)(inner)
    item = DECLARED.get(kind)
    if item and item.kind == "alias":
        return how_of(item.marks[1])
    return PLAINLY.get(kind) or (among(*item.bounds) if item and item.kind == "numbers" else kind)


def member_of(it):
    """The name of a member, with `?` if it may be missing or null, and how its value is read, by its marks."""
    key, how = it.key + "?" * (it.how == "optional"), how_of(it.type) if it.how != "named" else named(it.type)
    if it.key == "children":
        return "children?", CHILDREN
    if it.offer is not None:
        return key, offer if it.type == "bool" else options(how, it.offer or None)
    if it.is_lenient and it.how == "required":
        return key, TEXT_OR_EMPTY if it.type == "String" else those_that_fit(how_of(it.type[4:-1]))
    how = if_fits(how) if it.is_lenient else how
    return key, nullable(how) if it.how == "nullable" else how


TYPES = {name: dict(member_of(it) for it in item.members if it.how != "rest") for name, item in DECLARED.items() if item.kind == "struct"} | BY_HAND
# Types of which each value is one of these.
CHOICES = {name: [how_of(kind) for _, kind, _ in item.members] for name, item in sorted(DECLARED.items()) if item.kind == "union"}
# Those of them that the program of rows reads inside other types alone.
INSIDE = ("ChangeNotifications", "GlobPattern", "RelatedReport", "WorkspaceDocumentDiagnosticReport")
# Types that come back to the side that made them, with what the standard does not name.
KEPT = "CallHierarchyItem CodeAction CodeLens CompletionItem DocumentLink InlayHint ServerCapabilities WorkspaceSymbol".split()
# What a server offers by a boolean or by options that say nothing more to most servers.
OFFERED = [it.key for it in DECLARED["ServerCapabilities"].members if it.offer == "" and it.type == "bool"]


def all_capabilities(characters, names):
    """The members of `ServerCapabilities` that have a field, as the program of rows fills them in."""
    done = {"workDoneProgress": True}
    resolved = {"resolveProvider": True, **done}
    legend = {"tokenTypes": names, "tokenModifiers": characters}
    item = {"allCommitCharacters": characters, "completionItem": {"labelDetailsSupport": True}}
    folders = {"supported": True, "changeNotifications": False}
    return {
        "textDocumentSync": {"openClose": True, "change": 2, "willSave": False, "willSaveWaitUntil": True, "save": {"includeText": True}},
        "notebookDocumentSync": {"notebook": names},
        "completionProvider": {"triggerCharacters": characters, **item, **resolved},
        "signatureHelpProvider": {"triggerCharacters": characters, "retriggerCharacters": names, **done},
        "codeActionProvider": {"codeActionKinds": names, **resolved},
        "codeLensProvider": resolved,
        "documentLinkProvider": resolved,
        "documentOnTypeFormattingProvider": {"firstTriggerCharacter": "}", "moreTriggerCharacter": characters},
        "renameProvider": {"prepareProvider": True, **done},
        "executeCommandProvider": {"commands": names, **done},
        "semanticTokensProvider": {"legend": legend, "range": False, "full": {"delta": True}, **done},
        "diagnosticProvider": {"identifier": "}", "interFileDependencies": True, "workspaceDiagnostics": False, **done},
        "workspace": {"workspaceFolders": folders, "fileOperations": {"notebook": names}},
        "experimental": {"notebook": names},
        **{it: it != "definitionProvider" for it in OFFERED},
    }


def sample(how, key):
    """A value that fits. A text is the member's key, so that no two are alike."""
    how = how_of(how) if isinstance(how, str) else how
    if how in CHOICES:
        return sample(CHOICES[how][0], key)
    if isinstance(how, str):
        return {name.rstrip("?"): sample(member, name.rstrip("?")) for name, member in TYPES[how].items()}
    return how.fitting(key)


def is_fit(how, value):
    try:
        how(value)
    except Misfit:
        return False
    return True


# The words of the table `types` that stand for several rows.


def row(name, value):
    return f"typed {name} {ordered(value)}"


def whole_rows(name):
    """A type with all members, with those alone that have to be there, and without each of these."""
    whole = sample(name, "")
    needed = [it for it in TYPES[how_of(name)] if not it.endswith("?")]
    yield row(name, whole)
    if len(needed) < len(whole):
        yield row(name, {it: whole[it] for it in needed})
    for left_out in needed:
        yield row(name, {it: whole[it] for it in needed if it != left_out})


def form_rows(_):
    """Each type with several forms in each of them, and as an object without members."""
    for name in sorted(CHOICES.keys() - INSIDE):
        yield from (row(name, sample(way, "a")) for way in CHOICES[name])
        yield row(name, {})


def kept_rows(_):
    """Each type that keeps what the standard does not name, with other members."""
    for name in sorted({*KEPT} - {"ServerCapabilities"}):
        whole = sample(name, "")
        needed = {it: whole[it] for it in TYPES[name] if not it.endswith("?")}
        for more in [{"zz": None, "a": {"data": [1, None]}}, {"Data": 1, "data ": 2, "": 3}, {"data": None, "more": {"data": 1}}]:
            yield row(name, {**needed, **more})
        yield row(name, {**whole, "tooltips": "é"})


MADE = {"whole": whole_rows, "forms": form_rows, "kept": kept_rows}


def rows():
    """The rows of the table, each with its place there."""
    for place, line in table_of("types"):
        word, _, name = line.partition(" ")
        with at(place):
            yield from ((place, it) for it in (MADE[word](name) if word in MADE else [line]))


# The members and the forms that some row has read.
READ = set()


def read_as(how, value):
    """A value as one of these types, or by one of these functions, without what is not the type's own."""
    how = how_of(how) if isinstance(how, str) else how
    if how in CHOICES:
        found = [at for at, it in enumerate(CHOICES[how]) if if_fits(it)(value) is not None][:1]
        fits(found)
        READ.add((how, found[0]))
        return read_as(CHOICES[how][found[0]], value)
    if not isinstance(how, str):
        return how(value)
    fits(isinstance(value, dict))
    found, keys = {}, {name.rstrip("?"): member for name, member in TYPES[how].items()}
    for name, member in TYPES[how].items():
        key, is_kept = name.rstrip("?"), getattr(member, "is_kept", False)
        given = value.get(key)
        fits(given is not None or is_kept or name.endswith("?") or key in value and member is ANY)
        if given is not None or is_kept:
            taken = read_as(member, given)
            READ.update([(how, key)] * (given is not None))
            if taken is not None or is_kept or member is ANY:
                found[key] = taken
        elif not name.endswith("?"):
            found[key] = None
    return found | {key: it for key, it in value.items() if how in KEPT and key not in keys}


def unread():
    """The members and forms of the tables that no row has read so far."""
    for name, item in DECLARED.items():
        if item.kind == "struct" and any(it.how == "rest" for it in item.members) != (name in KEPT):
            yield f"{item.at}: one of this table and KEPT of tools/rows/typed.py says that {name} keeps what LSP does not name"
        if item.kind == "union":
            yield from (f"{item.at}: no row reads {name} as {it[0]}" for at, it in enumerate(item.members) if (name, at) not in READ)
        elif item.kind == "struct":
            yield from (f"{it.at}: no row reads {name}.{it.key}" for it in item.members if it.how != "rest" and (name, it.key) not in READ)


# Members of which the library writes less than it read. It keeps whether something is offered, and not how. It does not read a length that LSP
# 3.17 deprecates.
LESS = re.compile("/capabilities/|/rangeLength$")
# The program of rows reads progress of work alone.
OF_WORK = "ProgressParams = { token: integer | string; value: WorkDoneProgressBegin | WorkDoneProgressReport | WorkDoneProgressEnd }"


def unlike(rows):
    """Where a value that LSP's meta model allows is refused, is written as one that the model does not allow, or loses a member."""
    types = metamodel.read()[0] | metamodel.parse(OF_WORK)[0]
    wrong = metamodel.Values(types).wrong
    for place, row, answer in rows:
        _, name, text = row.split(" ", 2)
        given, forms = json.loads(text), [it for it in [name, *CHOICES.get(name, [])] if isinstance(it, str) and it in types]
        if not forms or wrong(forms, given, name):
            continue
        written = json.loads(answer) if answer != "refused" else None
        told = wrong(forms, written, name) + lost(given, written, name) if written is not None else [f"{name}: it is refused, and LSP 3.17 has it"]
        yield from (f"{place}: {it}" for it in told)


def lost(given, written, at):
    if isinstance(given, dict) and isinstance(written, dict):
        return [it for key in given for it in lost(given[key], written.get(key), f"{at}/{key}")]
    if isinstance(given, list) and isinstance(written, list) and len(given) == len(written):
        return [it for number, pair in enumerate(zip(given, written)) for it in lost(*pair, f"{at}/{number}")]
    return [f"{at}: {ordered(given)} is written as {ordered(written)}"] if given != written and not LESS.search(at) else []


def capabilities_answer(value):
    """A server's capabilities: each field, and `more`, whose members count if both have one."""
    more = value.get("more")
    fits(more is None or isinstance(more, dict))
    encoding = {"positionEncoding": value["positionEncoding"]} if "positionEncoding" in value else {}
    return {**encoding, **all_capabilities(value["characters"], value["names"]), **(more or {})}


def document_capabilities_answer(params):
    """LSP 3.17, "PositionEncodingKind" and "TextDocumentSyncOptions", of a server that hears of the parts that changed (2)."""
    include_text = params.get("includeText") is True
    return {"positionEncoding": agreed(params), "textDocumentSync": {"openClose": True, "change": 2, "save": {"includeText": include_text}}}


def document_capabilities_answers(params):
    """The same by types, and in a tree with what else the server can do, if that is an object."""
    can, server = document_capabilities_answer(params), params.get("server")
    return [ordered(can), ordered({**(server if isinstance(server, dict) else {}), **can})]


def typed_answer(text):
    name, _, value = text.partition(" ")
    value = json.loads(value)
    if name == "DocumentCapabilities":
        return document_capabilities_answers(value)
    try:
        return [ordered(capabilities_answer(value) if name == "ServerCapabilities" else read_as(name, value))]
    except Misfit:
        return ["refused"]


def acts_answer(text):
    """What a server does at a message by its method, with params that fit or do not (JSON-RPC 2.0, section 5.1)."""
    came = json.loads(text)
    method, params, id = came["method"], came["params"], came.get("id")
    keys = {"textDocument/didClose": 1, "textDocument/foldingRange": 1}.get(method, 2)
    misfits = misfits_of(params, ["textDocument", "position"][:keys])
    if method == "textDocument/didClose":
        if misfits:
            return [f"tell window/logMessage {ordered({'message': f'{method}: {misfits[0]}', 'type': 1})}"]
        return [f"tell textDocument/publishDiagnostics {ordered({'uri': params['textDocument']['uri'], 'diagnostics': []})}"]
    if method not in ACTS:
        return [f"refuse {id} {NOT_FOUND['code']} {NOT_FOUND['message']}"]
    if misfits:
        return [f"refuse {id} -32602 {misfits[0]}"]
    found = ACTS[method](params)
    return [f"refuse {id} -32803 no line above" if found is None else f"reply {id} {ordered(found)}"]


def line_above(params):
    at = {"character": 0, "line": params["position"]["line"] - 1}
    return {"uri": params["textDocument"]["uri"], "range": {"start": at, "end": at}} if at["line"] >= 0 else None


ACTS = {
    "textDocument/hover": lambda params: {"contents": {"kind": "plaintext", "value": params["textDocument"]["uri"]}},
    "textDocument/definition": line_above,
    "textDocument/foldingRange": lambda params: [{"startLine": 1, "endLine": 2}],
    "textDocument/completion": lambda params: params["position"],
}


def announce_answer(text):
    """What a table announces (LSP 3.17, "ServerCapabilities"): hovers and folds by `true`, completions and renames by their options."""
    completion = {"triggerCharacters": json.loads(text)["triggers"]}
    can = {"completionProvider": completion, "foldingRangeProvider": True, "hoverProvider": True, "renameProvider": {}}
    return [f"{ordered(can)}, {{}}"]


def answer_answer(text):
    """A request of a method in the table is answered, and refused if its params do not fit (JSON-RPC 2.0, section 5.1). Another is returned."""
    came = json.loads(text)
    method, params, id = came["method"], came["params"], came["id"]
    if method not in TABLED:
        return [f"returned {text}, 0 answered"]
    misfits = misfits_of(params, ["textDocument", "position"][: 1 if method == "textDocument/foldingRange" else 2])
    misfits += ["missing field `newName`"] * (method == "textDocument/rename" and "newName" not in params)
    return [f"refuse {id} -32602 {misfits[0]}, 0 answered" if misfits else f"reply {id} {ordered(TABLED[method](params))}, 1 answered"]


TABLED = {
    "textDocument/hover": ACTS["textDocument/hover"],
    "textDocument/foldingRange": ACTS["textDocument/foldingRange"],
    "textDocument/completion": lambda params: None,
    "textDocument/rename": lambda params: None,
}


def configuration_answer(text):
    """LSP 3.17, "Configuration Request": a client is asked if it can be, and replies with a list. Of one that can't be, the settings have the
    section (VS Code's way, docs/TYPES.md)."""
    given = json.loads(text)
    capabilities = given.get("client")
    can = isinstance(capabilities, dict) and capabilities.get("workspace", {}).get("configuration") is True
    asked = "ask workspace/configuration " + ordered({"items": [{"section": "lines"}]}) + " for " if can else "nothing"
    said = [f"{asked}7" if can else asked]
    reply, settings, value = given.get("reply"), given.get("settings"), 80
    for found in [reply[0] if isinstance(reply, list) and reply else None, settings.get("lines") if isinstance(settings, dict) else None]:
        taken = is_fit(UNSIGNED, found)
        value = found if taken else value
        said.append(f"{'taken' if taken else 'kept'} {value}")
    changed = given.get("changed")
    settings = changed.get("settings") if isinstance(changed, dict) and not can else None
    found = settings.get("lines") if isinstance(settings, dict) else None
    value = found if is_fit(UNSIGNED, found) else value
    return [", ".join([*said, f"{asked}8" if can else asked, str(value)])]


def pair(value):
    """A list of a small number and a truth."""
    fits(isinstance(value, list) and len(value) == 2)
    return [read_as(it, item) for it, item in zip([SMALL, TRUTH], value)]


def of_members(**members):
    """An object with these members. What a name with `_` stands for may be missing or null, and is written as null."""

    def read(value):
        fits(isinstance(value, dict))
        return {
            name.rstrip("_"): None if name.endswith("_") and value.get(name.rstrip("_")) is None else read_as(how, value.get(name.rstrip("_")))
            for name, how in members.items()
        }

    return read


def alone(read):
    """The same of an object that has no members beside these."""

    def known(value):
        found = read(value)
        fits(value.keys() <= found.keys())
        return found

    return known


def first_of(*ways):
    """The first type that fits."""

    def read(value):
        found = [it for it in (if_fits(lambda value, way=way: [read_as(way, value)])(value) for way in ways) if it]
        fits(found)
        return found[0][0]

    return read


def tagged(value):
    """An object whose member `t` says what it is."""
    fits(isinstance(value, dict) and value.get("t") in ("A", "B"))
    return {"t": value["t"], "n": read_as(SMALL if value["t"] == "A" else TEXT, value.get("n"))}


def first(value):
    """The first number of a list. What a type leaves unread does not count."""
    fits(isinstance(value, list) and value)
    return read_as(SMALL, value[0])


SMALL = among(0, 2**8 - 1)
LONG = among(-(2**63), 2**63 - 1)
UNSIGNED_LONG = among(0, 2**64 - 1)
LISTS = each(some(SMALL))
STRICT = alone(of_members(a=SMALL, b_=SMALL))
# By serde's rules. A list stands for an object's members in their order, if the object says so.
PLAIN = {
    "bool": TRUTH,
    "u8": SMALL,
    "i64": LONG,
    "u64": UNSIGNED_LONG,
    "f64": DECIMAL,
    "char": kind(lambda value: isinstance(value, str) and len(value) == 1),
    "text": TEXT,
    "any": ANY,
    "option": lambda value: None if value is None else SMALL(value),
    "list": some(LONG),
    "pair": pair,
    "lists": LISTS,
    "strict": STRICT,
    "untagged": some(first_of(SMALL, TEXT, pair, some(LONG), STRICT, LISTS)),
    "tagged": tagged,
    "flat": of_members(z=SMALL, a=SMALL, b_=SMALL),
    "first": first,
    "or zero": lambda value: value if is_fit(UNSIGNED_LONG, value) else 0,
    "empty": lambda value: fits(value == {}),
}


def plain_answers(row):
    name, _, values = row.partition(": ")
    return [plain_answer(PLAIN[name], json.loads(it)) for it in values.split("; ")]


def plain_answer(how, value):
    try:
        return ordered(how(value))
    except Misfit:
        return "refused"


def quoted(text):
    return json.dumps(text, ensure_ascii=False)


def uri_answer(text):
    """RFC 8089 and RFC 3986: the unreserved characters and `/` stand as they are."""
    path = json.loads(text)
    if not path.startswith("/"):
        return ["Relative"]
    return ["Nul" if "\0" in path else quoted("file://" + quote(path, safe="/"))]


def path_answer(uri):
    """The same, back."""
    path, fault = path_of(uri)
    return [fault or quoted(path)]


def names_answer(rest):
    """RFC 3986, section 2.3 and 6.2.2: URIs that differ in their escapes alone name the same."""
    uri, _, path = rest.partition(" ")
    return ["true" if path_of(uri)[0] == json.loads(path) else "false"]


def folders_answer(text):
    """LSP 3.17, "Initialize Request": `workspaceFolders`, or `rootUri` of a client that has no such list."""
    params = json.loads(text)
    folders, root = params.get("workspaceFolders"), params.get("rootUri")
    uris = [it["uri"] for it in folders] if folders is not None else [root] * (root is not None)
    return [ordered([path for path, fault in map(path_of, uris) if not fault])]


def tokens_answer(text):
    """LSP 3.17, "Integer Encoding for Tokens"."""
    numbers, last = [], [0, 0]
    for line, start, *others in json.loads(text):
        if [line, start] < last:
            return ["not in order"]
        numbers += [line - last[0], start - last[1] if line == last[0] else start, *others]
        last = [line, start]
    return [ordered({"data": numbers})]


def change_answer(text):
    """LSP 3.17, "Semantic Tokens": edits that make the later numbers of the earlier ones. There is none where they are the same, and else one,
    which spares what both begin with and what both end with."""
    given = json.loads(text)
    before, after = given["before"], given["after"]
    start = next((i for i, (a, b) in enumerate(zip(before, after)) if a != b), min(len(before), len(after)))
    rest, later = before[start:], after[start:]
    end = next((i for i, (a, b) in enumerate(zip(rest[::-1], later[::-1])) if a != b), min(len(rest), len(later)))
    put = later[: len(later) - end]
    edit = {"start": start, "deleteCount": len(rest) - end, **({"data": put} if put else {})}
    return [ordered({"edits": [edit] if before != after else []})]


def action_answer(text):
    """LSP 3.17, "CodeAction": its title, its kind and its edit."""
    given = json.loads(text)
    return [ordered({"title": given["title"], "kind": given["kind"], "edit": read_as("WorkspaceEdit", given["edit"])})]


def report_answer(text):
    """LSP 3.17, "Document Diagnostics": the report `unchanged` if the client has the one with this id."""
    given = json.loads(text)
    if given.get("previous") == given["id"]:
        return [ordered({"kind": "unchanged", "resultId": given["id"]})]
    return [ordered({"kind": "full", "resultId": given["id"], "items": read_as(some("Diagnostic"), given["items"])})]


def trace_answer(text):
    """LSP 3.17, "LogTrace": nothing is sent if the trace is off, and `verbose` only if the client wants that. "Initialize Request": a trace
    that is missing is off."""
    given = json.loads(text)

    def sent(value):
        if value == "off":
            return "Off nothing"
        params = {"message": given["message"], **({"verbose": given["verbose"]} if value == "verbose" and "verbose" in given else {})}
        return f"{value.capitalize()} tell $/logTrace {ordered(params)}"

    first = given.get("initialize", {}).get("trace")
    said = [sent(first if first in TRACES else "off")]
    if "set" in given:
        said.append(sent(given["set"]["value"]) if given["set"]["value"] in TRACES else "no such trace")
    return [", ".join(said)]


def register_answer(text):
    """LSP 3.17, "Register Capability" and "DidChangeWatchedFiles Notification": a client that has `dynamicRegistration` is asked."""
    given = json.loads(text)
    watching = given.get("client", {}).get("workspace", {}).get("didChangeWatchedFiles", {})
    if watching.get("dynamicRegistration") is not True:
        return ["nothing"]
    one = {"id": given["id"], "method": "workspace/didChangeWatchedFiles"}
    begun, ended = {"registrations": [{**one, "registerOptions": given["options"]}]}, {"unregisterations": [one]}
    return [f"ask client/registerCapability {ordered(begun)} for 7, ask client/unregisterCapability {ordered(ended)} for 8"]


def offset_answer(rest):
    """LSP 3.17, "Position": a character past the line's end is that end, and one within a pair is its start. A line ends with `\n` alone
    (docs/DOCUMENTS.md)."""
    position, _, text = rest.partition(" ")
    found, text = read_as("Position", json.loads(position)), json.loads(text)
    return [str(len(text[: place(text, (found["line"], found["character"]), Counting("utf-16", False))].encode()))]


def lines_answer(text):
    """By docs/DOCUMENTS.md a line ends with `\\n` or `\\r\\n`, and by LSP 3.17, "Text Documents", also with `\\r`. Behind the last there is none."""
    return [" ".join(it for ends in ("\r?\n", "\r\n|\n|\r") for it in [*map(quoted, re.split(ends, json.loads(text))), "none"])]


ROWS = {
    "method": acts_answer, "configuration": configuration_answer, "plain": plain_answers, "typed": typed_answer,
    "uri": uri_answer, "path": path_answer, "names": names_answer, "folders": folders_answer, "tokens": tokens_answer,
    "action": action_answer, "change": change_answer, "report": report_answer, "trace": trace_answer, "register": register_answer,
    "offset": offset_answer, "lines": lines_answer, "announce": announce_answer, "answer": answer_answer,
}
# The values of a trace (LSP 3.17, "TraceValue").
TRACES = ("off", "messages", "verbose")
