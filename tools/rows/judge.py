"""A second judge of sessions, made from the words of JSON-RPC 2.0 and LSP 3.17. `tools/rows/watch` compares `lsp_check` with it."""
import json
from collections import namedtuple

import types_judge
from tables import CRATES

MODEL = (CRATES.parent / "tools" / "metamodel.txt").read_text(encoding="utf-8").splitlines()
REQUESTS = {it.split()[1] for it in MODEL if it.startswith("request ")}
NOTIFICATIONS = {it.split()[1] for it in MODEL if it.startswith("notification ")}
EARLY = {("window/showMessage", False), ("window/logMessage", False), ("telemetry/event", False), ("window/showMessageRequest", True)}

BASE, J45, J4, J42, J5 = 'LSP 3.17, "Base Protocol"', *(f"JSON-RPC 2.0, section{it}" for it in ("s 4 and 5", " 4", " 4.2", " 5"))
ASK = 'LSP 3.17, "Request Message"'
CALLS = "JSON-RPC 2.0, section 4.1, and the method's section of LSP 3.17"
INITIALIZE, INITIALIZED = 'LSP 3.17, "Initialize Request"', 'LSP 3.17, "Initialized Notification"'
DOCUMENT = 'LSP 3.17, "DidOpenTextDocument Notification"'
CAPABILITIES, TYPES = 'LSP 3.17, "Capabilities"', "the method's section of LSP 3.17"

# A rule: who breaks it, how strongly it is demanded, what it says, and where.
Rule = namedtuple("Rule", "side level sentence section")
RULES = {
    "NotUtf8": Rule("sender", "must", "the content is not UTF-8", BASE),
    "NotJson": Rule("sender", "must", "the content is no JSON", J45),
    "Unreadable": Rule("sender", "must", "the content was not read: it nests too deeply, or has a text or a number that cannot be kept", J45),
    "Batch": Rule("sender", "implied", "the content is a batch, which LSP does not have", BASE),
    "NoObject": Rule("sender", "must", "the content is no object", J45),
    "BadVersion": Rule("sender", "must", '`jsonrpc` is not "2.0"', J45),
    "NoMessage": Rule("sender", "must", "there is neither a method nor an id", J4),
    "BadMethod": Rule("sender", "must", "`method` is no text", J4),
    "BadId": Rule("sender", "must", "`id` is neither an integer nor a text", ASK),
    "WideId": Rule("sender", "must", "`id` is no integer of 32 bits", ASK),
    "BadParams": Rule("sender", "must", "`params` is neither an object nor a list", J42),
    "BothOutcomes": Rule("sender", "must", "there is a `result` and an `error`", J5),
    "NoOutcome": Rule("sender", "must", "there is neither a `result` nor an `error`", J5),
    "BadError": Rule("sender", "must", "`error` is no object with an integer `code` and a text `message`", J5 + ".1"),
    "NeedsId": Rule("sender", "implied", "a request of this method has an id", CALLS),
    "TakesNoId": Rule("sender", "implied", "a notification of this method has no id", CALLS),
    "NobodyAsked": Rule("sender", "must", "no request waits for this reply: none had its id, or it has its reply", J5),
    "IdStillOpen": Rule("sender", "implied", "the id is in use: a request with it has no reply yet", J4),
    "NoReply": Rule("receiver", "must", "the session is over, and the request has no reply", J5),
    "BeforeResult": Rule("sender", "must", "`initialize` has no result yet", INITIALIZE),
    "BeforeInitialized": Rule("client", "must", "`initialized` has to come first", INITIALIZED),
    "SentAgain": Rule("client", "must", "it may be sent only once", f'{INITIALIZE} and {INITIALIZED.removeprefix("LSP 3.17, ")}'),
    "AfterShutdown": Rule("client", "must", "after `shutdown` only `exit` may be sent", 'LSP 3.17, "Shutdown Request"'),
    "AfterExit": Rule("client", "implied", "nothing may be sent after `exit`", 'LSP 3.17, "Exit Notification"'),
    "AlreadyOpen": Rule("client", "must", "the document is open", DOCUMENT),
    "NotOpen": Rule("client", "must", "the document is not open", DOCUMENT),
    "VersionNotHigher": Rule("client", "must", "the version of the document is not higher", 'LSP 3.17, "VersionedTextDocumentIdentifier"'),
    "NoSuchToken": Rule("sender", "must", "no request has this token, or it is over", 'LSP 3.17, "Work Done Progress" and "Partial Result Progress"'),
    "TokenEnded": Rule("sender", "should", "the progress of this token has ended", 'LSP 3.17, "Creating Work Done Progress"'),
    "NotAnnounced": Rule("sender", "implied", "the server gives a result for a method that it did not announce or register", CAPABILITIES),
    "AnnouncedUnknown": Rule("sender", "implied", "the server announced or registered this method, and answers that it does not know it", CAPABILITIES),
    "ClientCannot": Rule("sender", "implied", "the client did not announce that it answers this request", CAPABILITIES),
    "NeverOpened": Rule("sender", "implied", "the client never opened the document of these diagnostics", 'LSP 3.17, "PublishDiagnostics Notification"'),
    "WrongType": Rule("sender", "must", "a member is missing or has another type", TYPES),
    "LooseType": Rule("sender", "implied", "a member is null that may only be missing, or its value is not listed", TYPES),
    "EditsOverlap": Rule("sender", "must", "two edits of one text overlap", 'LSP 3.17, "TextEdit[]"'),
    "TokensNotInFives": Rule("sender", "must", "semantic tokens have five numbers each", 'LSP 3.17, "Semantic Tokens"'),
    "SelectionOutside": Rule("sender", "must", "the part that is selected is not within the whole part", 'LSP 3.17, "DocumentSymbol" and "LocationLink"'),
    "RangeReversed": Rule("sender", "implied", "the end of a range is before its start", 'LSP 3.17, "Range" and "FoldingRange"'),
    "LineOutside": Rule("sender", "must", "a line of a folding range is no line of the document", 'LSP 3.17, "FoldingRange"'),
}
# By which path of its capabilities a server announces a method, and by which path a client announces that it answers one.
PROVIDERS = {f"textDocument/{it}": f"{it}Provider" for it in (
    "hover definition declaration typeDefinition implementation references documentHighlight documentSymbol codeAction codeLens documentLink rename"
    " foldingRange selectionRange completion signatureHelp inlayHint inlineValue linkedEditingRange moniker diagnostic").split()} | {
    "textDocument/formatting": "documentFormattingProvider", "textDocument/rangeFormatting": "documentRangeFormattingProvider",
    "textDocument/onTypeFormatting": "documentOnTypeFormattingProvider", "textDocument/documentColor": "colorProvider",
    "textDocument/prepareCallHierarchy": "callHierarchyProvider", "textDocument/prepareTypeHierarchy": "typeHierarchyProvider",
    "textDocument/semanticTokens/full": "semanticTokensProvider full", "textDocument/semanticTokens/full/delta": "semanticTokensProvider full delta",
    "textDocument/semanticTokens/range": "semanticTokensProvider range", "workspace/symbol": "workspaceSymbolProvider",
    "workspace/executeCommand": "executeCommandProvider",
}
NEEDED = {
    "window/workDoneProgress/create": "window workDoneProgress", "window/showDocument": "window showDocument support",
    "workspace/configuration": "workspace configuration", "workspace/workspaceFolders": "workspace workspaceFolders", "workspace/applyEdit": "workspace applyEdit",
    "workspace/semanticTokens/refresh": "workspace semanticTokens refreshSupport", "workspace/codeLens/refresh": "workspace codeLens refreshSupport",
    "workspace/inlayHint/refresh": "workspace inlayHint refreshSupport", "workspace/inlineValue/refresh": "workspace inlineValue refreshSupport",
    "workspace/diagnostic/refresh": "workspace diagnostics refreshSupport",
}
# "The method used to register for semantic tokens requests is `textDocument/semanticTokens`" (LSP 3.17, "Semantic Tokens"): the options of a
# registration say which of the three.
TOKENS_AS, COMMAND = "textDocument/semanticTokens", "workspace/executeCommand"
# The rules that are judged only if their group is chosen.
GROUPS = {
    "capabilities": {"NotAnnounced", "AnnouncedUnknown", "ClientCannot", "NeverOpened"}, "types": {"WrongType", "LooseType"},
    "texts": {"EditsOverlap", "TokensNotInFives", "SelectionOutside", "RangeReversed", "LineOutside"},
}
# `lsp_check` reads no deeper content.
MOST_DEPTH = 127
DOCUMENTS, TOKENS = {"AlreadyOpen", "NotOpen", "VersionNotHigher"}, {"NoSuchToken", "TokenEnded"}


def text(rule, detail=""):
    return f"{RULES[rule].sentence}{': ' if detail else ''}{detail} ({RULES[rule].section})"


def other(way):
    return "<-" if way == "->" else "->"


def culprit(rule, way):
    """The side that breaks a rule by a message of this way."""
    return {"sender": way, "receiver": other(way), "client": "->"}[RULES[rule].side]


def key(value):
    """An id or a token, so that 1 and "1" are two; None: it is none. A number goes by its value: 1.0 is 1, and 1.5 is one too."""
    if type(value) is int and not -(1 << 63) <= value < 1 << 64:
        value = float(value)
    if isinstance(value, float) and value.is_integer() and -(1 << 63) <= value < 1 << 63:
        value = int(value)
    return (type(value), value) if isinstance(value, str) or type(value) in (int, float) else None


def is_whole(value):
    """Whether an id or a token is a text or an integer of 64 bits, as LSP has them."""
    name = key(value)
    return name is not None and name[0] is not float


def dig(tree, *names):
    for name in names:
        tree = tree.get(name) if isinstance(tree, dict) else None
    return tree


def is_wide(value):
    number = key(value)
    return number is not None and number[0] is int and not -(1 << 31) <= number[1] < 1 << 31


def shape(message):
    """The rules of its shape that a message breaks."""
    if isinstance(message, list):
        return ["Batch"]
    if not isinstance(message, dict):
        return ["NoObject"]
    found = [] if message.get("jsonrpc") == "2.0" else ["BadVersion"]
    if "method" in message:
        return found + call_shape(message)
    return found + (reply_shape(message) if "id" in message else ["NoMessage"])


def call_shape(message):
    has_id, method = "id" in message, message["method"]
    return [rule for rule, is_broken in [
        ("BadId", has_id and not is_whole(message["id"])),
        ("WideId", has_id and is_wide(message["id"])),
        ("BadParams", "params" in message and not isinstance(message["params"], (dict, list))),
        ("BadMethod", not isinstance(method, str)),
        ("NeedsId", isinstance(method, str) and not has_id and method in REQUESTS),
        ("TakesNoId", isinstance(method, str) and has_id and method in NOTIFICATIONS),
    ] if is_broken]


def reply_shape(message):
    failure, has_result = message.get("error"), "result" in message
    is_null = message["id"] is None and failure is not None and not has_result
    is_error = isinstance(failure, dict) and type(failure.get("code")) is int and isinstance(failure.get("message"), str)
    return [rule for rule, is_broken in [
        ("BadId", not is_null and not is_whole(message["id"])),
        ("WideId", is_wide(message["id"])),
        ("BothOutcomes", has_result and "error" in message),
        ("NoOutcome", not has_result and failure is None),
        ("BadError", failure is not None and not is_error),
    ] if is_broken]


def kind(message):
    """`request`, `note`, `reply`, or None of what has no place in a session."""
    if not isinstance(message, dict):
        return None
    if "method" in message:
        if not isinstance(message["method"], str):
            return None
        return "note" if "id" not in message else "request" if key(message["id"]) else None
    return "reply" if key(message.get("id")) else None


class Capabilities:
    """What both sides of one session announced, and what goes against it."""

    def __init__(self):
        self.server, self.client, self.registered, self.unconfirmed, self.unannounced, self.opened = {}, None, [], [], set(), set()

    def see(self, way, message, asked):
        """The rule that a message of the server breaks, and against which message. `asked` is the request that it answers."""
        if way == "->" or self.client is None:
            return None
        sort, method = kind(message), message.get("method")
        if sort == "request":
            return ("ClientCannot", None) if method in NEEDED and not is_offered(dig(self.client, *NEEDED[method].split())) else None
        if sort == "note":
            uri = dig(message, "params", "uri")
            is_unopened = method == "textDocument/publishDiagnostics" and isinstance(uri, str) and uri not in self.opened
            return ("NeverOpened", None) if is_unopened else None
        if sort != "reply" or not asked or asked["method"] not in PROVIDERS:
            return None
        has, had = self.announces(asked["method"]), asked["place"] not in self.unannounced
        if is_success(message):
            return None if has or had else ("NotAnnounced", asked["place"])
        is_certain = has and had and not self.unconfirmed
        return ("AnnouncedUnknown", asked["place"]) if is_certain and dig(message, "error", "code") == -32601 else None

    def announces(self, method):
        return is_offered(dig(self.server, *PROVIDERS[method].split())) or any(registers(it, method) for _, it in self.registered)

    def announces_for(self, method, params):
        """The same of one request: a command is announced by its name."""
        if method != COMMAND:
            return self.announces(method)
        lists = [dig(self.server, "executeCommandProvider", "commands")]
        lists += [dig(it, "registerOptions", "commands") for _, it in self.registered if dig(it, "method") == COMMAND]
        name = dig(params, "command")
        return isinstance(name, str) and any(name in items(it) for it in lists)

    def keep(self, place, way, message, asked):
        sort, method, params = kind(message), message.get("method"), message.get("params")
        if way == "->" and sort == "request" and method in PROVIDERS and not self.announces_for(method, params):
            self.unannounced.add(place)
        if opens(way, message):
            self.client = dig(message, "params", "capabilities")
            self.client = {} if self.client is None else self.client
        if way == "->" and sort == "note":
            self.opened |= {it["uri"] for it in opened(method, params) if isinstance(dig(it, "uri"), str)}
        if way == "->" and sort == "reply" and asked:
            self.settle(asked["place"], is_success(message))
        if way == "<-" and sort == "request" and method == "client/registerCapability":
            self.registered += [(place, it) for it in items(dig(params, "registrations"))]
        if way == "<-" and sort == "request" and method == "client/unregisterCapability":
            self.unconfirmed.append((place, items(dig(params, "unregisterations"))))
        if sort == "reply" and asked and asked["opens"] and is_success(message):
            self.server = dig(message, "result", "capabilities")

    def settle(self, place, succeeds):
        """The client replied to the request of the server at this place."""
        if not succeeds:
            self.registered = [it for it in self.registered if it[0] != place]
            return
        ended = [it for at, all in self.unconfirmed if at == place for it in all]
        self.registered = [it for it in self.registered if not any(is_same(it[1], other) for other in ended)]
        self.unconfirmed = [it for it in self.unconfirmed if it[0] != place]


def items(value):
    return value if isinstance(value, list) else []


def is_same(one, other):
    """Whether an unregistration is that of a registration."""
    return all(isinstance(dig(one, it), str) and dig(one, it) == dig(other, it) for it in ("id", "method"))


def registers(registration, method):
    if method.startswith(TOKENS_AS + "/"):
        part = method.removeprefix(TOKENS_AS + "/").split("/")
        return dig(registration, "method") == TOKENS_AS and is_offered(dig(registration, "registerOptions", *part))
    return dig(registration, "method") == method


def opened(method, params):
    """The documents that a notification of the client opens."""
    if method == "textDocument/didOpen":
        return [dig(params, "textDocument")]
    if method == "notebookDocument/didOpen":
        return [dig(params, "notebookDocument"), *items(dig(params, "cellTextDocuments"))]
    return items(dig(params, "change", "cells", "structure", "didOpen")) if method == "notebookDocument/didChange" else []


def is_offered(value):
    return value is not None and value is not False


def is_success(message):
    return message.get("error") is None and "result" in message


class Judge:
    """Judges one session, message by message."""

    def __init__(self, is_whole=True, capabilities=None, shows_types=None):
        self.is_whole, self.capabilities, self.shows_types, self.folds = is_whole, capabilities, shows_types, types_judge.Folds()
        self.asked, self.live, self.ended, self.documents = [], set(), {}, {}
        self.result = self.initialized = self.shutdown = self.exit = None

    def begins(self, way, message):
        """Whether another session begins."""
        return opens(way, message) and (not self.is_whole or self.exit is not None)

    def see(self, place, way, message):
        """The rules that a message breaks: each with the place of the message that it goes against, and whether that is sure. Behind a rule of
        types stands what does not fit."""
        found = [(rule, None, True) for rule in shape(message)]
        if kind(message):
            parts = [self.order(way, message) or self.ids(way, message), self.document(place, way, message), self.progress(way, message)]
            found += [(rule, against, self.is_whole or against is not None) for rule, against in filter(None, parts)]
            asked = self.waiting(other(way), key(message["id"])) if kind(message) == "reply" else None
            if self.capabilities:
                against = self.capabilities.see(way, message, asked)
                found += [(*against, True)] if against else []
                self.capabilities.keep(place, way, message, asked)
            if self.shows_types is not None:
                against = asked["place"] if asked else None
                faults = types_judge.faults(way, message, asked)
                outside = self.folds.fault(message, asked) if ("WrongType" not in dict(faults)) else None
                faults += [("LineOutside", outside)] if outside else []
                found += [(rule, against, self.shows_types, told) for rule, told in faults]
            self.folds.keep(place, way, message, asked)
            self.keep(place, way, message)
        else:
            self.lose(way)
        return found

    def lose(self, way):
        """A message that is none, or that can't be read, may have changed any document."""
        if way == "->":
            self.folds = types_judge.Folds()

    def waiting(self, way, name):
        return next((it for it in self.asked if (it["way"], it["key"]) == (way, name)), None)

    def order(self, way, message):
        if kind(message) == "reply":
            return None
        called = (message["method"], kind(message) == "request")
        opening = next((it for it in self.asked if it["opens"]), None)
        waits = opening and opening["place"]
        if way == "<-":
            tokens = [it["work"] for it in self.asked if it["opens"]]
            is_early = called in EARLY or progress_key(message) is not None and progress_key(message) in tokens
            return None if self.result is not None or (opening and is_early) else ("BeforeResult", waits)
        if called == ("exit", False):
            return ("AfterExit", self.exit) if self.exit is not None else None
        for rule, place in [("AfterExit", self.exit), ("AfterShutdown", self.shutdown)]:
            if place is not None:
                return rule, place
        if called == ("initialize", True):
            return ("SentAgain", self.result) if self.result is not None else ("BeforeResult", waits) if opening else None
        if self.result is None:
            return "BeforeResult", waits
        if called == ("initialized", False):
            return ("SentAgain", self.initialized) if self.initialized is not None else None
        return None if self.initialized is not None else ("BeforeInitialized", self.result)

    def ids(self, way, message):
        if kind(message) == "request":
            asked = self.waiting(way, key(message["id"]))
            return ("IdStillOpen", asked["place"]) if asked else None
        if kind(message) == "reply" and not self.waiting(other(way), key(message["id"])):
            return "NobodyAsked", None
        return None

    def document(self, place, way, message):
        uri, version = dig(message, "params", "textDocument", "uri"), dig(message, "params", "textDocument", "version")
        done = message.get("method", "") if way == "->" and kind(message) == "note" and isinstance(uri, str) else ""
        version = version if type(version) is int and -(1 << 63) <= version < 1 << 63 else None
        document, found = self.documents.get(uri) if done else None, None
        if done == "textDocument/didOpen":
            found = ("AlreadyOpen", document["opened"]) if document else None
            self.documents[uri] = {"opened": place, "told": place, "version": version}
        elif done == "textDocument/didChange":
            found = None if document else ("NotOpen", None)
            if document and version is not None:
                if document["version"] is not None and version <= document["version"]:
                    found = "VersionNotHigher", document["told"]
                document |= {"told": place, "version": version}
        elif done == "textDocument/didClose":
            found = None if self.documents.pop(uri, None) else ("NotOpen", None)
        return found

    def progress(self, way, message):
        name = progress_key(message)
        if name is None:
            return None
        gives = [it["created"] if it["way"] == way else it["work"] if it["work"] == name else it["part"] for it in self.asked]
        if name in gives or way == "<-" and name in self.live:
            return None
        return ("TokenEnded", self.ended[name]) if way == "<-" and name in self.ended else ("NoSuchToken", None)

    def keep(self, place, way, message):
        sort = kind(message)
        if sort == "request":
            method, params = message["method"], message.get("params")
            creates = way == "<-" and method == "window/workDoneProgress/create"
            self.asked.append({
                "way": way, "place": place, "key": key(message["id"]), "id": message["id"], "method": method,
                "opens": opens(way, message), "work": key(dig(params, "workDoneToken")), "part": key(dig(params, "partialResultToken")),
                "created": key(dig(params, "token")) if creates else None,
            })
        elif sort == "reply":
            self.answer(place, other(way), message)
        if way == "<-" and progress_key(message) is not None and dig(message, "params", "value", "kind") == "end":
            self.end(place, progress_key(message))
        if way == "->" and sort != "reply":
            name = {("initialized", "note"): "initialized", ("exit", "note"): "exit", ("shutdown", "request"): "shutdown"}.get((message["method"], sort))
            if name:
                setattr(self, name, place)

    def answer(self, place, way, message):
        asked = self.waiting(way, key(message["id"]))
        if not asked:
            return
        self.asked.remove(asked)
        if message.get("error") is None and "result" in message:
            if asked["opens"]:
                self.result = place
            if asked["created"] is not None:
                self.live.add(asked["created"])
                self.ended.pop(asked["created"], None)

    def end(self, place, name):
        if name in self.live:
            self.live.discard(name)
            self.ended[name] = place

    def left(self, server_ended, client_ended):
        """The requests that have no reply, each with whether its side has ended."""
        is_over = {"->": server_ended or self.exit is not None, "<-": client_ended or self.exit is not None}
        return [(it, is_over[it["way"]]) for it in self.asked]


def opens(way, message):
    return way == "->" and kind(message) == "request" and message["method"] == "initialize"


def progress_key(message):
    return key(dig(message, "params", "token")) if kind(message) == "note" and message["method"] == "$/progress" else None


def depth(value):
    inner = value.values() if isinstance(value, dict) else value if isinstance(value, list) else None
    return 0 if inner is None else 1 + max(map(depth, inner), default=0)


def has_beyond(value):
    """Whether there is a number beyond every float, or half of a surrogate pair: JSON may have these, and `lsp_check` reads none."""
    try:
        json.dumps(value, ensure_ascii=False, allow_nan=False).encode()
        return False
    except ValueError:
        return True


def loads(data):
    """A message of these bytes, or the rule that they break."""
    def refuse(word):
        raise ValueError(word)
    try:
        message = json.loads(data.decode(), parse_constant=refuse)
        return (None, "Unreadable") if depth(message) > MOST_DEPTH or has_beyond(message) else (message, None)
    except UnicodeDecodeError:
        return None, "NotUtf8"
    except ValueError:
        return None, "NotJson"
