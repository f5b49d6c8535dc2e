"""Two small logs for each rule: one that keeps it, and one that breaks it."""
import json


def line(way, message=None, **members):
    return f"{way} {message or json.dumps({'jsonrpc': '2.0', **members}, separators=(',', ':'))}\n"


def asks(way, key, method, params=None):
    return line(way, id=key, method=method, **({} if params is None else {"params": params}))


def tells(way, method, params=None):
    return line(way, method=method, **({} if params is None else {"params": params}))


def replies(way, key, result=None):
    return line(way, id=key, result=result)


def refuses(way, key, error):
    return line(way, id=key, error=error)


ERROR, UNKNOWN = {"code": -32803, "message": "the project is not ready"}, {"code": -32601, "message": "no such method"}
CAN = {"window": {"workDoneProgress": True}, "workspace": {"inlayHint": {"refreshSupport": True}}}
INITIALIZE = asks("->", 0, "initialize", {"processId": None, "rootUri": None, "capabilities": CAN})
RESULT, NOTHING = replies("<-", 0, {"capabilities": {"hoverProvider": True}}), replies("<-", 0, {"capabilities": {}})
INITIALIZED = tells("->", "initialized", {})
SHUTDOWN, DONE, EXIT = asks("->", 9, "shutdown"), replies("<-", 9), tells("->", "exit")
PLACE = {"textDocument": {"uri": "file:///a"}, "position": {"line": 0, "character": 0}}
DOCUMENT = {"textDocument": {"uri": "file:///a"}}
HOVER, HOVERED = asks("->", 1, "textDocument/hover", PLACE), replies("<-", 1)
LOGGED = tells("<-", "window/logMessage", {"type": 3, "message": "ready"})
OPEN = tells("->", "textDocument/didOpen", {"textDocument": {"uri": "file:///a", "languageId": "a", "version": 1, "text": ""}})
CLOSE = tells("->", "textDocument/didClose", {"textDocument": {"uri": "file:///a"}})
PUBLISH = tells("<-", "textDocument/publishDiagnostics", {"uri": "file:///a", "diagnostics": []})
CREATE, CREATED = asks("<-", 1, "window/workDoneProgress/create", {"token": "t"}), replies("->", 1)


def change(version):
    params = {"textDocument": {"uri": "file:///a", "version": version}, "contentChanges": [{"text": "b"}]}
    return tells("->", "textDocument/didChange", params)


def progress(kind, token="t"):
    return tells("<-", "$/progress", {"token": token, "value": {"kind": kind, **({"title": "work"} if kind == "begin" else {})}})


def within(*lines):
    return [INITIALIZE, RESULT, INITIALIZED, *lines, SHUTDOWN, DONE, EXIT]


def told(value):
    return line("<-", f'{{"jsonrpc":"2.0","method":"telemetry/event","params":[{value}]}}')


def nested(depth):
    return told("[" * (depth - 1) + "]" * (depth - 1))


def announced(member, *lines):
    """A session whose server announced this member alone."""
    offer = {"semanticTokensProvider": {"legend": {"tokenTypes": ["a"], "tokenModifiers": []}, "full": True}}.get(member, True)
    return [INITIALIZE, replies("<-", 0, {"capabilities": {member: offer}}), *within(*lines)[2:]]


def span(start, end):
    return {at: {"line": place[0], "character": place[1]} for at, place in (("start", start), ("end", end))}


def symbols(members, end=4):
    """A session with a symbol of four columns, of which those up to `end` are selected."""
    found = [{**members, "range": span((0, 0), (0, 4)), "selectionRange": span((0, 1), (0, end))}]
    return announced("documentSymbolProvider", asks("->", 1, "textDocument/documentSymbol", DOCUMENT), replies("<-", 1, found))


def edited(*spans):
    """A session with edits of these spans."""
    options = {"options": {"tabSize": 4, "insertSpaces": True}}
    found = [{"range": span(*it), "newText": "a"} for it in spans]
    return announced("documentFormattingProvider", asks("->", 1, "textDocument/formatting", DOCUMENT | options), replies("<-", 1, found))


def tokens(*numbers):
    found = {"data": numbers}
    return announced("semanticTokensProvider", asks("->", 1, "textDocument/semanticTokens/full", DOCUMENT), replies("<-", 1, found))


def folds(start, end, text="a\nb\nc"):
    """A session with a folding range of these lines and columns, of a document of three lines."""
    found = [{"startLine": start[0], "startCharacter": start[1], "endLine": end[0], "endCharacter": end[1]}]
    opened = tells("->", "textDocument/didOpen", {"textDocument": {"uri": "file:///a", "languageId": "a", "version": 1, "text": text}})
    asked = asks("->", 1, "textDocument/foldingRange", DOCUMENT)
    offered = replies("<-", 0, {"capabilities": {"textDocumentSync": 1, "foldingRangeProvider": True}})
    return [INITIALIZE, offered, *within(opened, asked, replies("<-", 1, found), CLOSE)[2:]]


# The rule, the log that keeps it, and the one that breaks it.
LOGS = {
    "NotUtf8": (within(line("<-", '{"jsonrpc":"2.0","method":"telemetry/event","params":["\u00e9"]}')), within(LOGGED, b'<- {"jsonrpc":"2.0","method":"a\xff"}\n')),
    "NotJson": (within(LOGGED), within(line("<-", "{'jsonrpc': '2.0'}"))),
    "Unreadable": (within(nested(100)), within(nested(130), told("1e999"), told('"\\ud83d"'))),
    "Batch": (within(LOGGED, LOGGED), within(line("<-", f"[{LOGGED[3:-1]},{LOGGED[3:-1]}]"))),
    "NoObject": (within(LOGGED), within(line("<-", '"ready"'))),
    "BadVersion": (within(LOGGED), within(line("<-", '{"method":"window/logMessage","params":{"type":3,"message":"ready"}}'))),
    "NoMessage": (within(LOGGED), within(line("<-", params={"type": 3, "message": "ready"}))),
    "BadMethod": (within(LOGGED), within(line("<-", method=7))),
    "BadId": (within(HOVER, HOVERED, refuses("<-", None, {"code": -32700, "message": "no JSON"})), within(HOVER, HOVERED, replies("<-", None))),
    "WideId": (within(asks("->", 2147483647, "textDocument/hover", PLACE), replies("<-", 2147483647)),
               within(asks("->", 2147483648, "textDocument/hover", PLACE), replies("<-", 2147483648))),
    "BadParams": (within(asks("<-", 1, "workspace/inlayHint/refresh"), CREATED),
                  within(line("<-", '{"jsonrpc":"2.0","id":1,"method":"workspace/inlayHint/refresh","params":null}'), CREATED)),
    "BothOutcomes": (within(HOVER, refuses("<-", 1, ERROR)), within(HOVER, line("<-", id=1, result=None, error=ERROR))),
    "NoOutcome": (within(HOVER, HOVERED), within(HOVER, line("<-", id=1))),
    "BadError": (within(HOVER, refuses("<-", 1, ERROR)), within(HOVER, refuses("<-", 1, "no such method"))),
    "NeedsId": (within(HOVER, HOVERED), within(tells("->", "textDocument/hover", PLACE))),
    "TakesNoId": (within(LOGGED), within(asks("<-", 1, "window/logMessage", {"type": 3, "message": "ready"}), CREATED)),
    "NobodyAsked": (within(HOVER, HOVERED), within(HOVER, HOVERED, HOVERED)),
    "IdStillOpen": (within(HOVER, HOVERED, HOVER, HOVERED), within(HOVER, HOVER, HOVERED, HOVERED)),
    "NoReply": (within(HOVER, HOVERED), within(HOVER)),
    "BeforeResult": ([INITIALIZE, LOGGED, *within()[1:]], [INITIALIZE, tells("<-", "$/logTrace", {"message": "ready"}), *within()[1:]]),
    "BeforeInitialized": (within(OPEN), [INITIALIZE, RESULT, OPEN, INITIALIZED, SHUTDOWN, DONE, EXIT]),
    "SentAgain": (within(), within(INITIALIZED)),
    "AfterShutdown": (within(OPEN, CLOSE), [*within(OPEN)[:-1], CLOSE, EXIT]),
    "AfterExit": (within(), [*within(), EXIT]),
    "AlreadyOpen": (within(OPEN, CLOSE, OPEN), within(OPEN, OPEN)),
    "NotOpen": (within(OPEN, CLOSE), within(OPEN, CLOSE, CLOSE)),
    "VersionNotHigher": (within(OPEN, change(2), change(4)), within(OPEN, change(2), change(2))),
    "NoSuchToken": (within(CREATE, CREATED, progress("begin"), progress("end")), within(CREATE, refuses("->", 1, ERROR), progress("begin"), progress("end"))),
    "TokenEnded": (within(CREATE, CREATED, progress("begin"), progress("report"), progress("end")),
                   within(CREATE, CREATED, progress("begin"), progress("end"), progress("report"))),
    "NotAnnounced": (within(HOVER, HOVERED), [INITIALIZE, NOTHING, *within(HOVER, HOVERED)[2:]]),
    "AnnouncedUnknown": (within(HOVER, refuses("<-", 1, ERROR)), within(HOVER, refuses("<-", 1, UNKNOWN))),
    "ClientCannot": (within(CREATE, CREATED), within(asks("<-", 1, "workspace/configuration", {"items": []}), replies("->", 1, []))),
    "NeverOpened": (within(OPEN, PUBLISH), within(PUBLISH)),
    "WrongType": (symbols({"name": "a", "kind": 12}), symbols({"name": "a", "kind": "function"})),
    "LooseType": (symbols({"name": "a", "kind": 26, "tags": [1]}), symbols({"name": "a", "kind": 27, "tags": [1]})),
    "EditsOverlap": (edited(((0, 0), (0, 2)), ((0, 2), (0, 2)), ((0, 2), (1, 0))), edited(((0, 0), (0, 2)), ((0, 1), (0, 1)))),
    "TokensNotInFives": (tokens(0, 0, 1, 0, 0), tokens(0, 0, 1, 0)),
    "SelectionOutside": (symbols({"name": "a", "kind": 12}, 4), symbols({"name": "a", "kind": 12}, 5)),
    "RangeReversed": (folds((1, 1), (1, 1)), folds((1, 1), (1, 0))),
    "LineOutside": (folds((0, 1), (2, 1)), folds((0, 1), (3, 0))),
}


# ---- what both sides announced, and edits in any order

LEGEND = {"documentSelector": None, "legend": {"tokenTypes": ["a"], "tokenModifiers": []}}
DYNAMIC = {
    "textDocument": {
        "hover": {"dynamicRegistration": True},
        "semanticTokens": {"dynamicRegistration": True, "requests": {"full": True}, "tokenTypes": [], "tokenModifiers": [], "formats": ["relative"]},
    },
    "workspace": {"executeCommand": {"dynamicRegistration": True}}, "notebookDocument": {"synchronization": {}},
}
TOKENS = {"full": {}, "full/delta": {"previousResultId": "1"}, "range": {"range": span((0, 0), (1, 0))}}


def between(server, *lines):
    """A session of a client that takes registrations, with a server that announced this."""
    asked = asks("->", 0, "initialize", {"processId": None, "rootUri": None, "capabilities": DYNAMIC})
    return [asked, replies("<-", 0, {"capabilities": server}), *within(*lines)[2:]]


def registers(key, method, options, name="r"):
    return asks("<-", key, "client/registerCapability", {"registrations": [{"id": name, "method": method, "registerOptions": options}]})


def unregisters(key, method, name="r"):
    return asks("<-", key, "client/unregisterCapability", {"unregisterations": [{"id": name, "method": method}]})


def each_token():
    """One request of each method of semantic tokens, and its result."""
    return [it for part, more in TOKENS.items() for it in (asks("->", 1, f"textDocument/semanticTokens/{part}", DOCUMENT | more), replies("<-", 1, {"data": []}))]


def runs(name, error=None):
    """A request of a command, and the reply."""
    return [asks("->", 1, "workspace/executeCommand", {"command": name}), refuses("<-", 1, error) if error else HOVERED]


def formats(*spans):
    options = {"options": {"tabSize": 4, "insertSpaces": True}}
    return [asks("->", 1, "textDocument/formatting", DOCUMENT | options), replies("<-", 1, [{"range": span(*it), "newText": "a"} for it in spans])]


COMMANDS, TOLD, CONFIRMED = "workspace/executeCommand", [HOVER, HOVERED], replies("->", 2)
UNTOLD, DECLINED = [HOVER, refuses("<-", 1, UNKNOWN)], refuses("->", 2, ERROR)
ADDED = {"structure": {"array": {"start": 1, "deleteCount": 0}, "didOpen": [{"uri": "cell:2", "languageId": "a", "version": 1, "text": ""}]}}
FIRST, SECOND, THIRD = ((0, 0), (0, 2)), ((0, 2), (1, 0)), ((4, 0), (4, 1))


def publishes(uri):
    return tells("<-", "textDocument/publishDiagnostics", {"uri": uri, "diagnostics": []})


# A log, and what it breaks: the rule, and the number of the line.
MORE = {
    # "The method used to register for semantic tokens requests is `textDocument/semanticTokens`" (LSP 3.17, "Semantic Tokens").
    "tokens_registered": (between({}, registers(2, "textDocument/semanticTokens", LEGEND | {"full": {"delta": True}, "range": {}}), CONFIRMED, *each_token()), []),
    "tokens_registered_in_part": (between({}, registers(2, "textDocument/semanticTokens", LEGEND | {"full": {"delta": False}}), CONFIRMED, *each_token()),
                                  [("NotAnnounced", 9), ("NotAnnounced", 11)]),
    "tokens_announced_in_part": (between({"semanticTokensProvider": LEGEND | {"full": {"delta": True}, "range": False}}, *each_token()), [("NotAnnounced", 9)]),
    "tokens_unknown": (between({"semanticTokensProvider": LEGEND | {"range": True}}, asks("->", 1, "textDocument/semanticTokens/range", DOCUMENT | TOKENS["range"]),
                               refuses("<-", 1, UNKNOWN)), [("AnnouncedUnknown", 5)]),
    # The texts of the cells open with their notebook, or are added to it (LSP 3.17, "Notebook Document Synchronization").
    "notebook": (between(
        {"notebookDocumentSync": {"notebookSelector": [{"notebook": "a"}]}},
        tells("->", "notebookDocument/didOpen", {
            "notebookDocument": {"uri": "file:///n", "notebookType": "a", "version": 1, "cells": [{"kind": 2, "document": "cell:1"}]},
            "cellTextDocuments": [{"uri": "cell:1", "languageId": "a", "version": 1, "text": ""}]}),
        publishes("cell:1"), publishes("file:///n"), publishes("cell:2"),
        tells("->", "notebookDocument/didChange", {"notebookDocument": {"uri": "file:///n", "version": 2}, "change": {"cells": ADDED}}),
        publishes("cell:2"), publishes("cell:3")), [("NeverOpened", 7), ("NeverOpened", 10)]),
    # A server announces its commands by their names (LSP 3.17, "Execute a command").
    "commands": (between(
        {"executeCommandProvider": {"commands": ["a"]}}, registers(2, COMMANDS, {"commands": ["b"]}), CONFIRMED,
        *runs("a"), *runs("b"), *runs("c", UNKNOWN), *runs("a", UNKNOWN), *runs("b", UNKNOWN)), [("AnnouncedUnknown", 13), ("AnnouncedUnknown", 15)]),
    "command_registered_later": (between(
        {"executeCommandProvider": {"commands": ["a"]}}, *runs("b", UNKNOWN), registers(2, COMMANDS, {"commands": ["b"]}), CONFIRMED, *runs("b", UNKNOWN)),
        [("AnnouncedUnknown", 9)]),
    # A registration ends when the client confirms that (LSP 3.17, "Unregister Capability").
    "unregistered": (between({}, registers(2, "textDocument/hover", {}), CONFIRMED, *TOLD, unregisters(2, "textDocument/hover"), CONFIRMED, *TOLD, *UNTOLD),
                     [("NotAnnounced", 11)]),
    "unregistered_meanwhile": (between(
        {}, registers(2, "textDocument/hover", {}), CONFIRMED, unregisters(2, "textDocument/hover"), *UNTOLD, HOVER, CONFIRMED, HOVERED), []),
    "unregistered_other": (between({}, registers(2, "textDocument/hover", {}), CONFIRMED, unregisters(2, "textDocument/hover", "s"), CONFIRMED, *TOLD, *UNTOLD),
                           [("AnnouncedUnknown", 11)]),
    "unregistration_refused": (between({}, registers(2, "textDocument/hover", {}), CONFIRMED, unregisters(2, "textDocument/hover"), DECLINED, *TOLD, *UNTOLD), []),
    # A client that refuses a registration does not register (LSP 3.17, "Register Capability").
    "registration_refused": (between({}, registers(2, "textDocument/hover", {}), DECLINED, *UNTOLD, *TOLD), [("NotAnnounced", 9)]),
    # Edits may come in any order. "Text edits ranges must never overlap" (LSP 3.17, "TextEdit[]").
    "edits_in_any_order": (between(
        {"documentFormattingProvider": True}, *formats(THIRD, SECOND, FIRST), *formats(SECOND, THIRD, FIRST), *formats(THIRD, FIRST, SECOND, ((0, 1), (0, 1)))),
        [("EditsOverlap", 9)]),
}


def fraction_ids():
    """Requests whose ids have a fraction or an exponent, and replies to them: the last reply has the id of no request."""
    ids = [("1.5", "15e-1"), ("1e3", "1000"), ("2", "2.0"), ("2.5", "2.25")]
    asked = [line("->", f'{{"jsonrpc":"2.0","id":{it},"method":"textDocument/hover","params":{json.dumps(PLACE)}}}') for it, _ in ids]
    replied = [line("<-", f'{{"jsonrpc":"2.0","id":{it},"result":null}}') for _, it in ids]
    return "".join(within(*asked, *replied)).encode()


def files():
    """The logs, by their names."""
    made = {}
    for rule, both in LOGS.items():
        for name, lines in zip(("kept", "broken"), both):
            made[f"{rule}_{name}.lsp"] = b"".join(it if isinstance(it, bytes) else it.encode() for it in lines)
    return made


def more():
    """More logs, by their names, and what they break."""
    return {f"{name}.lsp": ("".join(lines).encode(), broken) for name, (lines, broken) in MORE.items()}
