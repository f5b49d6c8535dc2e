#!/usr/bin/env python3
"""A client whose reply to a request of the server crosses the client's `shutdown`. LSP 3.17 ("Shutdown Request") forbids requests and
notifications there, and no responses. So the server ignores the reply, waits for `exit`, and ends in status 0: `example_diagnostics`, and
`example_toml` in each of its modes. A request at that place ends the session. Another client sends `shutdown` while its hover waits: the
hover gets its reply first.

It ends in status 1 at the first difference. `.ci/run` calls it.
"""
import sys

sys.dont_write_bytecode = True

import watched  # noqa: F401
from lsp import built, expect, run, started

WAYS = [["example_diagnostics", "--stdio"], ["example_toml", "inline"], ["example_toml", "threads"], ["example_toml"]]
CAPABILITIES = {"workspace": {"configuration": True}}
HOVER = {"textDocument": {"uri": "file:///a"}, "position": {"line": 0, "character": 0}}


def begins(client):
    """It is asked for its configuration, under this id."""
    reply = client.ask("initialize", {"processId": None, "rootUri": None, "capabilities": CAPABILITIES})
    expect("the id of the reply", reply["id"], 1)
    client.notify("initialized", {})
    while (message := client.message("workspace/configuration")).get("method") != "workspace/configuration" or "id" not in message:
        pass
    return message["id"]


def held(way, count, last, status, text):
    """A session that ends so after a client that is asked for its configuration, asks for `shutdown`, only then answers, so often, and sends a
    last message."""
    with started(built(*way)) as client:
        asked = begins(client)
        expect("the reply to shutdown", client.ask("shutdown")["result"], None)
        for _ in range(count):
            client.send(id=asked, result=[None])
        client.send(**last)
        ended, rest, said = client.end()
        expect(f"the status after {count} late answers, and what follows the reply to shutdown", (ended, rest), (status, b""))
        expect(f"what it says ({said!r})", text in said and bool(text) == bool(said), True)


def waits(way):
    """A hover waits for the configuration when `shutdown` comes: it has its reply first (JSON-RPC 2.0, section 5), an error."""
    with started(built(*way)) as client:
        begins(client)
        client.send(id=7, method="textDocument/hover", params=HOVER)
        client.send(id=8, method="shutdown")
        reply = client.message("the reply to the hover")
        expect("the reply to the hover", (reply["id"], reply.get("error")), (7, {"code": -32800, "message": "canceled by shutdown"}))
        reply = client.message("the reply to shutdown")
        expect("the reply to shutdown", (reply["id"], reply["result"]), (8, None))
        client.notify("exit")
        expect("the status, what follows, and what it says", client.end(), (0, b"", ""))


def check_all():
    for way in WAYS:
        for count in [1, 1000]:
            held(way, count, {"method": "exit"}, 0, "")
        held(way, 1, {"id": 9, "method": "demo/noSuchMethod"}, 1, "unexpected message during shutdown: Request")
        print(" ".join(way), "answers behind shutdown: passed over")
    waits(WAYS[0])
    print(" ".join(WAYS[0]), "a hover that waits at shutdown: has its reply")


if __name__ == "__main__":
    sys.exit(run(check_all))
