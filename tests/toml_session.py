"""A session with `example_toml`, for the clients of that server: what its client shows, and the text that the server holds."""
from typing import NamedTuple

import watched  # noqa: F401
from lsp import COMPACT, expect

NOTE = "file:///note.toml"
# Severities of diagnostics, and types of log lines (LSP 3.17, "DiagnosticSeverity", "MessageType").
ERROR, WARNING = 1, 2


class Log(NamedTuple):
    """A line that the server has its client log (LSP 3.17, "LogMessage Notification")."""

    type: int
    text: str


class Problems(NamedTuple):
    """The diagnostics of a document, each by its severity and its first line (LSP 3.17, "PublishDiagnostics Notification"). The text of a
    document that is closed or lost has no version, and a text that a save brought back has none."""

    uri: str
    version: int | None
    marks: list


def shown_by(message):
    """What the client shows after a notification of the server's, or None."""
    params = message.get("params")
    if message.get("method") == "window/logMessage":
        return Log(params["type"], params["message"])
    if message.get("method") == "textDocument/publishDiagnostics":
        marks = [(it["severity"], it["range"]["start"]["line"]) for it in params["diagnostics"]]
        return Problems(params["uri"], params.get("version"), marks)
    return None


class Session:
    """A session with the server. `shown` lists what the client has shown since the last look, and `problems` has the last diagnostics of each
    document. With `is_inline` no threads run the server's jobs."""

    def __init__(self, client, encoding="utf-16", is_inline=False, **capabilities):
        self.client, self.encoding, self.is_inline = client, encoding, is_inline
        self.shown, self.problems = [], {}
        client.layout, client.last_id = COMPACT, 10
        general = {"general": {"positionEncodings": [encoding]}, **capabilities}
        (reply,) = self.replies(client.request("initialize", {"capabilities": general}))
        self.can = reply["result"]["capabilities"]
        expect("the encoding", self.can["positionEncoding"], encoding)
        expect("the notifications", self.can["textDocumentSync"], {"openClose": True, "change": 2, "save": {"includeText": True}})
        client.notify("initialized", {})

    def receive(self):
        """The next message. What the client shows after it is kept for a look."""
        message = self.client.message()
        shown = shown_by(message)
        if shown:
            self.shown.append(shown)
        if isinstance(shown, Problems):
            self.problems[shown.uri] = shown
        return message

    def replies(self, *ids):
        """The replies to these requests, in the order in which they arrive."""
        replies = []
        while len(replies) < len(ids):
            message = self.receive()
            if "id" in message:
                waiting = set(ids) - {it["id"] for it in replies}
                expect("whether a request waits for this reply", message["id"] in waiting, True)
                replies.append(message)
        return replies

    def request(self, method, uri, **params):
        return self.client.request(method, {"textDocument": {"uri": uri}, **params})

    def ask(self, method, uri, **params):
        (reply,) = self.replies(self.request(method, uri, **params))
        return reply["result"]

    def search(self, query):
        (reply,) = self.replies(self.client.request("workspace/symbol", {"query": query}))
        return reply["result"]

    def notify(self, method, uri, members=None, **params):
        self.client.notify(f"textDocument/{method}", {"textDocument": {"uri": uri, **(members or {})}, **params})

    def open(self, text, version=1, uri=NOTE):
        self.notify("didOpen", uri, {"languageId": "toml", "version": version, "text": text})

    def change(self, version, *changes, uri=NOTE):
        self.notify("didChange", uri, {"version": version}, contentChanges=list(changes))

    def save(self, uri=NOTE, **members):
        self.notify("didSave", uri, **members)

    def close(self, uri=NOTE):
        self.notify("didClose", uri)

    def marks(self, uri, version):
        """The diagnostics of this version, as soon as they are there."""
        while uri not in self.problems or self.problems[uri].version != version:
            self.receive()
        return self.problems[uri].marks

    def look(self, when, shown, text, uri=NOTE):
        """The text that the server holds, and all that the client has shown since the last look. Only the problems of a text may arrive after
        the reply to a later request, if threads run the jobs."""
        at_once = shown if self.is_inline else [it for it in shown if isinstance(it, Log) or it == none(it.uri)]
        held, hover = self.request("toml/text", uri), self.request("textDocument/hover", uri, position=place(0, 0))
        results = {it["id"]: it["result"] for it in self.replies(held, hover)}
        expect(f"the text after {when}", results[held], text)
        expect(f"whether a hover after {when} needs no text", results[hover] is None or text is not None, True)
        expect(f"what is shown at once after {when}", [it for it in self.shown if it in at_once], at_once)
        while len(self.shown) < len(shown):
            self.receive()
        expect(f"what is shown after {when}", self.shown, shown)
        self.shown = []


def place(line, character):
    return {"line": line, "character": character}


def edit(line, start, end, text):
    """A change of some characters of a line."""
    return {"range": {"start": place(line, start), "end": place(line, end)}, "text": text}


def log(kind, words):
    return Log(kind, f"{NOTE}: {words}")


def none(uri=NOTE):
    """The diagnostics of a text that is closed or lost."""
    return Problems(uri, None, [])


def errors(version, *lines):
    """An error in each of these lines."""
    return Problems(NOTE, version, [(ERROR, line) for line in lines])
