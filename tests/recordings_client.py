#!/usr/bin/env python3
"""Plays the clients of recorded sessions of real editors and servers (`recordings/`) to the servers of this repository.

It sends each message of the client as soon as the messages arrived that the editor had received before it. One thing is changed: the client
counts positions as with the server of the recording, and offers no other encoding. Its replies to requests of that server are left out. A
server that asks for its configuration gets it before anything else. It checks the following:

- Each request has one reply, each message has the type of LSP (`typed.py`), and the status is that of LSP 3.17, "Exit Notification": a client
  that never sends `shutdown`, or leaves without `exit`, gets 1.
- After each notification of a document, the text of `example_toml` is that of a model here, and the marks of `example_diagnostics` are those
  of its lines.
- After a change that can't be read, the text is lost: the server has no text and no marks, until the client sends the whole text.

Then all messages of each recording, of both sides, go through `lsp_demo pump`, which has to write the same trees in the same order. It ends in
status 1 at the first difference. `.ci/run` calls it.
"""
import json
import re
import subprocess
import sys
from contextlib import contextmanager
from pathlib import Path

sys.dont_write_bytecode = True

import watched  # noqa: F401
from lsp import PATIENCE, Client, Difference, Program, bodies, built, expect, frame, run, told
from typed import lines_of

RECORDINGS = sorted(Path(__file__).resolve().parent.glob("recordings/*.lsp"))
WAYS = [["example_session"], ["example_diagnostics"], ["example_toml", "inline"], ["example_toml", "threads"], ["example_toml"]]
LINE_END = re.compile("\r\n|\n|\r")
# The configuration: how many characters `example_diagnostics` allows in a line, if the client can be asked and if not, and the version of TOML
# for `example_toml`.
LONGEST, LONGEST_UNASKED = 20, 80
CONFIGURATION = {"example_diagnostics": [LONGEST], "example_toml": [{"version": "1.1"}]}
# The lines that `example_diagnostics` marks in one recording, from open to close. Spyder's versions go back from 8 to -17 at 25 undos, and
# marks are shown throughout. Only what this client adds at the end, a change that can't be read and the close, takes them away.
SHOWN = {"spyder6_search": {"file:///project/a.py": [[2], [2, 5], [2, 5, 17, 20], [2], [], [2], []]}}
UNIT_LENGTHS = {"utf-8": lambda char: len(char.encode()), "utf-16": lambda char: 1 + (char > "\uffff"), "utf-32": lambda char: 1}


class Text:
    """The text of a document, by the rules of LSP 3.17, "Text Documents". It is None while it is lost, or closed."""

    def __init__(self, encoding, is_lost_by_versions=False, takes_saves=True):
        self.length = UNIT_LENGTHS[encoding]
        self.is_lost_by_versions = is_lost_by_versions
        self.takes_saves = takes_saves
        self.text = self.version = None

    def hear(self, method, params):
        document = params["textDocument"]
        if method == "textDocument/didOpen":
            self.text, self.version = document["text"], document["version"]
        elif method == "textDocument/didChange":
            has_whole = any("range" not in change for change in params["contentChanges"])
            if self.is_lost_by_versions and document["version"] < self.version and not has_whole:
                self.text, document = None, {"version": self.version}
            self.version = document["version"]
            for change in params["contentChanges"]:
                self.change(change)
        elif method == "textDocument/didSave" and self.text is None and self.takes_saves:
            self.text = params.get("text")
        elif method == "textDocument/didClose":
            self.text = None

    def change(self, change):
        if "range" not in change:
            self.text = change["text"]
        if "range" not in change or self.text is None:
            return
        start, end = (self.offset(change["range"][side]) for side in ("start", "end"))
        self.text = self.text[:start] + change["text"] + self.text[end:]

    def offset(self, position):
        """A place past the end of its line is that end, and one past the last line the end of the text."""
        ends = [found.span() for found in LINE_END.finditer(self.text)] + [(len(self.text), len(self.text))]
        if position["line"] >= len(ends):
            return len(self.text)
        at, units = ends[position["line"] - 1][1] if position["line"] else 0, position["character"]
        while units > 0 and at < ends[position["line"]][0]:
            units -= self.length(self.text[at])
            at += 1
        return at

    def marks(self, longest):
        """The lines that `example_diagnostics` marks."""
        lines = LINE_END.split(self.text or "")
        return [number for number, line in enumerate(lines) if len(line) > longest]


class Played(Client):
    """Sends what a recorded client sent. What comes is looked at as it comes."""

    def __init__(self, program, way):
        super().__init__(program, answers={})
        self.way = way
        self.texts = {}  # by URI
        self.replied = {}  # the replies to each id
        self.held = {}  # for each request for a text: what it has to be
        self.marks = {}  # for each URI: the marks that came, each once if it comes again
        self.wanted = {}  # and those that have to
        self.encoding = "utf-16"
        self.takes_saves = False  # whether the server asked for the text of a save
        self.longest = LONGEST_UNASKED
        self.line = 0  # the line of the recording that is played

    def look(self, message):
        super().look(message)
        params = message.get("params")
        if message.get("method") == "textDocument/publishDiagnostics":
            add(self.marks, params["uri"], [mark["range"]["start"]["line"] for mark in params["diagnostics"]])
        if "method" not in message:
            self.replied.setdefault(message["id"], []).append(message)

    def awaits(self, id):
        while id not in self.replied:
            self.message(f"the reply to {id!r}")

    def is_configured(self):
        """Answers the server's first request, which is for its configuration."""
        self.answers = None
        while (message := self.message("workspace/configuration")).get("method") != "workspace/configuration":
            pass
        self.send(id=message["id"], result=CONFIGURATION[self.way[0]])
        self.answers, self.longest = {}, LONGEST

    def tells(self, method, params):
        """A notification of a document, and what has to come of it."""
        self.notify(method, params)
        uri = params["textDocument"]["uri"]
        text = self.texts.setdefault(uri, Text(self.encoding, True, self.takes_saves))
        text.hear(method, params)
        add(self.wanted, uri, text.marks(self.longest))
        self.asks_for_text(uri, text.text)

    def asks_for_text(self, uri, text):
        if self.way[0] == "example_toml":
            id = f"text {len(self.held)}"
            self.held[id] = text
            self.send(id=id, method="toml/text", params={"textDocument": {"uri": uri}})

    def loses(self, uri):
        """A change that can't be read: the text is held no more, until it comes whole."""
        text = self.texts[uri]
        if text.text is None:
            return
        document = {"uri": uri, "version": text.version + 1}
        self.notify("textDocument/didChange", {"textDocument": document, "contentChanges": [{"text": 1}]})
        self.asks_for_text(uri, None)
        add(self.wanted, uri, [])
        whole = {"textDocument": {"uri": uri, "version": text.version + 2}, "contentChanges": [{"text": text.text}]}
        self.tells("textDocument/didChange", whole)


def add(lists, key, value):
    known = lists.setdefault(key, [])
    if known[-1:] != [value]:
        known.append(value)


def encoding_of(messages):
    """How a recorded client counts: as the reply to `initialize` says. It may speak to several servers, and get one reply."""
    asks = [message for of_client, message in messages if of_client and message.get("method") == "initialize"]
    expect("how many requests `initialize` the client sends", len(asks), 1)
    ask = asks[0]
    for of_client, message in messages:
        if not of_client and "method" not in message and message["id"] == ask["id"]:
            return message["result"]["capabilities"].get("positionEncoding", "utf-16")


def play(client, messages):
    client.encoding = encoding_of(messages)
    changes = [at for at, (of_client, message) in enumerate(messages) if of_client and message.get("method") == "textDocument/didChange"]
    asked, is_shut = set(), False
    for at, (of_client, message) in enumerate(messages):
        client.line = at + 1
        method, id, params = message.get("method"), message.get("id"), message.get("params")
        if not of_client:
            if method is None and id in asked:
                client.awaits(id)
        elif method == "initialize":
            params["capabilities"].setdefault("general", {})["positionEncodings"] = [client.encoding]
            can_be_asked = params["capabilities"].get("workspace", {}).get("configuration") is True
            client.send(id=id, method=method, params=params)
            client.awaits(id)
            capabilities = client.replied[id][0]["result"]["capabilities"]
            expect("how positions are counted", capabilities.get("positionEncoding", client.encoding), client.encoding)
            client.takes_saves = capabilities.get("textDocumentSync", {}).get("save") == {"includeText": True}
        elif method is not None and id is not None:
            asked.add(id)
            is_shut |= method == "shutdown"
            client.send(**{key: value for key, value in message.items() if key != "jsonrpc"})
        elif method is not None and method.startswith("textDocument/did") and not is_shut:
            client.tells(method, params)
            if changes[-1:] == [at]:
                client.loses(params["textDocument"]["uri"])
        elif method is not None:
            client.notify(method, params)
            if method == "initialized" and client.way[0] in CONFIGURATION and can_be_asked:
                client.is_configured()
    return asked


def status_of(messages):
    """0 if `exit` comes next behind the request `shutdown`, and else 1 (LSP 3.17, "Exit Notification")."""
    calls = [(message["method"], "id" in message) for of_client, message in messages if of_client and "method" in message]
    behind = calls[calls.index(("shutdown", True)) + 1 :] if ("shutdown", True) in calls else []
    return 0 if behind[:1] == [("exit", False)] else 1


def holds(client, recording):
    """Whether the texts, and the marks, are those of the client."""
    for id, text in client.held.items():
        expect(f"the {id}", client.replied[id][0]["result"], text)
    if client.way == ["example_diagnostics"]:
        for uri, marks in client.marks.items():
            expect(f"the marks of {uri}", marks, client.wanted[uri])
        for uri, marks in SHOWN.get(recording.stem, {}).items():
            expect(f"the marks of {uri}", client.marks.get(uri), marks)


@contextmanager
def placed(recording, client):
    """Whatever goes wrong is told with the recording, and with its line while that is played."""
    try:
        yield
    except Exception as fault:
        raise Difference(f"{named(recording)}{f':{client.line}' * bool(client.line)}: {told(fault)}") from None


def named(recording):
    return f"tests/recordings/{recording.name}"


def replays(recording, way):
    messages = list(lines_of(recording))
    with Program(built(*way)) as program, Played(program, way) as client, placed(recording, client):
        asked = play(client, messages)
        client.line = 0
        client.close_input()
        for body in bodies(client.rest()):
            client.look(json.loads(body))
        expect("the status", program.status(), status_of(messages))
        expect("the requests without one reply", [id for id in asked if len(client.replied.get(id, [])) != 1], [])
        holds(client, recording)
        return len(asked) + len(client.held)


def is_passed_on(recording):
    """`"params": null` comes out as no params."""
    messages = [message for _, message in lines_of(recording)]
    frames = b"".join(frame(json.dumps(message, ensure_ascii=False).encode()) for message in messages)
    pumped = subprocess.run(built("lsp_demo", "pump"), input=frames, capture_output=True, timeout=PATIENCE, check=False)
    expect(f"{named(recording)}: the status of pump, and standard error", (pumped.returncode, pumped.stderr), (0, b""))
    came = [json.loads(body) for body in bodies(pumped.stdout)]
    for sent in messages:
        if sent.get("params", 0) is None:
            del sent["params"]
    expect(f"{named(recording)}: how many messages pump passes on", len(came), len(messages))
    for line, (one, other) in enumerate(zip(came, messages), 1):
        expect(f"{named(recording)}:{line}: the message that pump passes on", one, other)


def check_all():
    expect("whether there are recordings", bool(RECORDINGS), True)
    for recording in RECORDINGS:
        for way in WAYS:
            print(" ".join(way), recording.stem, f"{replays(recording, way)} replies", flush=True)
        is_passed_on(recording)
    print("each message of each recording passed on: the same tree")


if __name__ == "__main__":
    sys.exit(run(check_all))
