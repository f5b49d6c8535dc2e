"""How the tables of the types differ from LSP's meta model (`metamodel.py`), for `tools/types --check`.

It compares each method with its params and its result, and each type by its name and wherever another type or a method has it: its keys,
which of them may be missing or null, its forms, its numbers, its marks. It does not report a whole tree (`Value`) where the model has a
type, a string where the model lists words, and the options of something that is only offered (`bool` with the mark `+`)."""
import re

from metamodel import parse, read, without_registration

# Our types that stand in no table, as the model has them.
FORMS = {"String": ["string"], "bool": ["boolean"], "u32": ["uinteger"], "i32": ["integer"], "f64": ["decimal"], "Value": ["any"], "T": ["any"]}
FORMS |= {"()": ["null"], "NumberOrString": ["integer", "string"], "MarkupKind": ["string"], "LabelOffsets": [("list", ["uinteger"])]}
FORMS |= {"ContentChange": parse("It = { range: Range; rangeLength?: uinteger; text: string } | { text: string }")[0]["It"]}
# Where our tables are not as the model, and why.
OTHERWISE = {
    "$/progress": "a client may send it too, and no server here reads it",
    "DocumentSymbol.children": "it is always written",
    "FileSystemWatcher.kind": "the standard has a `uinteger`, and lsprotocol an `int`",
    "WorkspaceSymbol.deprecated": "a `SymbolInformation` has it, and both are one type here",
    "workspace/symbol": "a `SymbolInformation` is read as a `WorkspaceSymbol`",
}
# Members that decide nothing, and are read leniently (docs/TYPES.md), as tokens of progress are.
LENIENT = """VersionedTextDocumentIdentifier.version TextDocumentItem.languageId TextDocumentItem.version WorkspaceFolder.name
InitializeParams.processId InitializeParams.clientInfo InitializeParams.locale InitializeParams.rootPath InitializeParams.trace
CompletionParams.context SignatureHelpParams.context CodeActionContext.diagnostics CodeActionContext.triggerKind""".split()
TOKENS = ("workDoneToken", "partialResultToken")


def is_lenient(name, key):
    return f"{name}.{key}" in LENIENT or key in TOKENS and name != "WorkDoneProgressParams"


class Comparison:
    """How our types differ from the model's: the place of each difference, what it is about, and how it differs."""

    def __init__(self, items):
        self.items, self.seen = items, {}
        self.types, self.methods = read()

    def ours(self, kind):
        """The forms of one of our types. That of an object or of a list of numbers is its item in the table."""
        outer = re.fullmatch(r"(Option|Box|Vec|BTreeMap)<(?:String, )?(.*)>", kind)
        if outer and outer[1] in ("Option", "Box"):
            return self.ours(outer[2]) + ["null"] * (outer[1] == "Option")
        if outer:
            return [("list" if outer[1] == "Vec" else "map", outer[2])]
        item = self.items.get(re.sub("<.*", "", kind))
        if item and item.kind in ("alias", "union"):
            cases = [item.marks[1]] if item.kind == "alias" else [case for _, case, _ in item.members]
            return [form for case in cases for form in self.ours(case)]
        return [item] if item else FORMS.get(kind, [kind])

    def theirs(self, forms):
        """The forms of a type of the model, with the name of each that has one."""
        for it in without_registration(forms):
            inner = self.types.get(it, []) if isinstance(it, str) else []
            if it in ("Position", "Range") or not inner:
                yield it, it
            elif inner[0][0] == '"':
                yield it, "string"
            else:
                yield from ((it, form) for _, form in self.theirs(inner))

    def pair(self, at, about, mine, name, their):
        """How two forms differ, or None if they are of two kinds."""
        if isinstance(mine, (str, tuple)) and mine == their:
            return []
        if isinstance(mine, tuple) and isinstance(their, tuple) and mine[0] == their[0]:
            return [*self.forms(at, about, self.ours(mine[1]), their[1])] if isinstance(mine[1], str) else None
        if isinstance(mine, (str, tuple)):
            return None
        if mine.kind == "struct" and isinstance(their, tuple) and their[0] == "object":
            return self.objects(mine, name if isinstance(name, str) else "an object", their[1])
        if mine.kind == "numbers" and isinstance(their, str) and ".." in their:
            values = [int(value) for _, value, _ in mine.members]
            spans = {(min(values), max(values)), mine.bounds or (min(values), max(values))}
            return [(mine.at, mine.name, f"LSP 3.17 has the numbers {their}")] * ({their} != {f"{least}..{most}" for least, most in spans})
        return None

    def forms(self, at, about, mine, their):
        """How the forms of two types differ."""
        left = [] if mine == ["any"] else [*self.theirs(their)]
        for form in mine if left else []:
            found = [(it, differ) for it in left if (differ := self.pair(at, about, form, *it)) is not None]
            best, differ = min(found, key=lambda it: (it[0][0] != getattr(form, "name", ""), len(it[1])), default=(None, []))
            yield from differ if found else [(at, about, f"LSP 3.17 has no form {getattr(form, 'name', form)}")]
            left = [it for it in left if it != best]
        yield from ((at, about, f"the form {name if isinstance(name, str) else form} of LSP 3.17 is missing") for name, form in left)

    def objects(self, item, name, their):
        """How two objects differ. They are looked at once."""
        key = item.name, str(their)
        if key not in self.seen:
            self.seen[key] = []
            self.seen[key] += self.members({it.key: it for it in item.members if it.how != "rest"}, item, name, their)
        return self.seen[key]

    def members(self, mine, item, name, their):
        for key in their.keys() - mine.keys():
            yield item.at, f"{item.name}.{key}", f"{name} of LSP 3.17 has this member, and the table has not"
        for key, it in mine.items():
            about, (forms, is_needed) = f"{item.name}.{key}", their.get(key, ([], None))
            if is_needed is None:
                yield it.at, about, f"{name} of LSP 3.17 has no such member"
            elif it.how == "named":
                yield from [(it.at, about, f"LSP 3.17 has {forms[0]} here")] * (forms != [f'"{it.type}"'])
            else:
                yield from ((it.at, about, text) for text in self.marks(it, item.name, forms, is_needed))
                if it.offer is None or it.type != "bool":
                    yield from self.forms(it.at, about, self.taken(it, forms), [form for form in forms if form != "null" or it.how != "optional"])

    def marks(self, it, name, forms, is_needed):
        """What is wrong with the marks of a member."""
        if it.is_lenient != is_lenient(name, it.key):
            yield f"its mark `!` is {'not in' if it.is_lenient else 'missing, and in'} LENIENT of tools/against.py"
        if not it.is_lenient and (it.how != "optional") != is_needed:
            yield f"by LSP 3.17 it {'has to be there' if is_needed else 'may be missing'}"
        if it.how == "nullable" and "null" not in forms:
            yield "by LSP 3.17 it may not be null"
        if it.offer is not None and it.type == "bool" and forms != ["any"] and (forms[0] != "boolean" or len(forms) < 2):
            yield "LSP 3.17 has no options here"

    def taken(self, it, forms):
        """The forms of a member: also null where it has to be there, and a boolean, or a number, where it is offered."""
        inside = [form for member in self.items[it.type].members if member.key == it.offer for form in self.ours(member.type)] if it.offer else []
        return self.ours(it.type) + ["null"] * (it.how == "nullable" and "null" in forms) + ["boolean"] * (it.offer == "") + inside

    def method(self, at, method, way, params, result=None):
        if method not in self.methods:
            return [(at, method, "LSP 3.17 has no such method")]
        kind, direction, *theirs = self.methods[method]
        out = [(at, method, f"by LSP 3.17 its direction is {direction}")] * (direction != way)
        out += [(at, method, f"by LSP 3.17 it is a {kind}")] * ((kind == "request") != (result is not None))
        for ours, forms in zip([params, result], theirs):
            out += self.forms(at, method, self.ours(ours), forms) if ours and forms else []
        return out

    def all(self, methods):
        for words, _, at in methods:
            yield from self.method(at, *words[1:])
        named = {words[1] for words, *_ in methods}
        yield from ((methods[-1][2], it, "LSP 3.17 has this method, and no table has it") for it in sorted(self.methods.keys() - named))
        for name in sorted(self.items.keys() & self.types.keys()):
            yield from self.forms(self.items[name].at, name, self.ours(name), [name])
        compared = {name for name, _ in self.seen}
        structs = ((name, it) for name, it in self.items.items() if it.kind == "struct")
        yield from ((it.at, name, "no type of LSP 3.17 is where this one is") for name, it in structs if it.name not in compared)


def differences(items, methods):
    """A line for each place where our tables differ from the model and OTHERWISE does not say why."""
    found = dict.fromkeys(Comparison(items).all(methods))
    for about in OTHERWISE.keys() - {about for _, about, _ in found}:
        yield f"tools/against.py: {about} is in OTHERWISE, and no table differs there"
    yield from (f"{at}: {about}: {differs}" for at, about, differs in found if about not in OTHERWISE)
