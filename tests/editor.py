#!/usr/bin/env python3
"""Plays an editor: one session with a language server, which `session` below describes. Put your own requests there.

    tests/editor.py PROGRAM [ARGUMENT ..]            starts the program, and talks to it through pipes
    tests/editor.py --connect HOST:PORT              connects to a running server, for example under `rt try -- HOST:PORT`
    tests/editor.py --socket PROGRAM [ARGUMENT ..]   starts it with an address after its arguments, for two sessions, one after the other

It waits at most PATIENCE seconds for one thing, 300 if the environment does not set it. At the first difference it prints the difference and
ends in status 1. It needs `lsp.py`, which `tools/new` copies too. In the repository of the library `.ci/run` calls it.
"""
import sys
from pathlib import Path

sys.dont_write_bytecode = True

from lsp import ANY_HEADER, Client, Program, connected, expect, run, started

if Path(__file__).with_name("watched.py").exists():  # in the repository of the library the server's messages are judged too
    import watched  # noqa: F401

METHOD_NOT_FOUND = -32601


def session(editor):
    """What is sent, and what has to come."""
    result = editor.ask("initialize", {"processId": None, "rootUri": None, "capabilities": {}})["result"]
    expect("whether it announces what it does", isinstance(result["capabilities"], dict), True)
    editor.notify("initialized", {})

    # Your own requests go here, as:
    #     document = {"uri": "file:///a.txt", "languageId": "text", "version": 1, "text": "one line\n"}
    #     editor.notify("textDocument/didOpen", {"textDocument": document})
    #     expect("the marks", editor.notice("textDocument/publishDiagnostics")["diagnostics"], [])
    unknown = editor.ask("demo/noSuchMethod", {})
    expect("the error of a method that it does not have", unknown["error"]["code"], METHOD_NOT_FOUND)

    expect("the reply to shutdown", editor.ask("shutdown")["result"], None)
    editor.notify("exit")


def connect(address):
    """One session over a socket, as soon as somebody listens there."""
    host, _, port = address.rpartition(":")
    with Client(None, connected(int(port), host=host), answers={}) as client:
        session(client)


def serve(command):
    """A program that serves two editors, one after another."""
    with Program(command, listens=True) as program:
        for _ in range(2):
            with program.connect(answers={}) as client:
                session(client)
        expect("whether it still runs", program.is_up(), True)


def start(command):
    """A program that ends with its session, in status 0."""
    with started(command, answers={}) as client:
        session(client)
        expect("the exit status", client.program.status(), 0)


def main(words):
    Client.header = ANY_HEADER
    if words[:1] == ["--connect"] and len(words) == 2:
        return run(lambda: connect(words[1]))
    if words[:1] == ["--socket"] and len(words) > 1:
        return run(lambda: serve(words[1:]))
    if words and not words[0].startswith("--"):
        return run(lambda: start(words))
    return __doc__


if __name__ == "__main__":
    sys.exit(main(sys.argv[1:]))
