#!/usr/bin/env python3
"""How long the marks of an edited document take while many documents are open, in `example_toml` or another server with diagnostics.

    bench/marks.py [--documents 100] [--rounds 5] [--address HOST:PORT]

It opens the documents, edits one at once, and waits for the diagnostics of that version. Then it edits them all, so that each has a job
that waits, and one of them once more. It prints seconds. Without an address it starts the `example_toml` that `rt ci` built.
"""
import argparse
import statistics
import sys
import time
from pathlib import Path

sys.dont_write_bytecode = True
sys.path.insert(0, str(Path(__file__).resolve().parent.parent / "tests"))

from lsp import COMPACT, Client, built, connected, started


def marks_of(client, uri, version):
    """Waits for the diagnostics of this version."""
    while True:
        params = client.message().get("params", {})
        if params.get("uri") == uri and params.get("version") == version:
            return


def edit(client, uri, version):
    text = {"text": f"a = {version}\n"}
    client.notify("textDocument/didChange", {"textDocument": {"uri": uri, "version": version}, "contentChanges": [text]})


def measured(client, uris, edited, version):
    """The seconds from the last edit of a document to the marks of that version."""
    for uri in [*edited, uris[0]]:
        version += 1
        edit(client, uri, version)
    start = time.monotonic()
    marks_of(client, uris[0], version)
    return time.monotonic() - start, version


def measure(client, documents, rounds):
    client.layout = COMPACT
    client.ask("initialize", {"capabilities": {}})
    client.notify("initialized", {})
    uris = [f"file:///{number}.toml" for number in range(documents)]
    for uri in uris:
        client.notify("textDocument/didOpen", {"textDocument": {"uri": uri, "languageId": "toml", "version": 0, "text": "a = 0\n"}})
    took, version = measured(client, uris, [], 0)
    print(f"{documents} documents opened, then one edited: {took:.2f} s")
    all_took = []
    for _ in range(rounds):
        took, version = measured(client, uris, uris, version)
        all_took.append(took)
    print(f"all edited, then one of them: {statistics.median(all_took):.2f} s, at most {max(all_took):.2f} s")
    client.ask("shutdown", None)
    client.notify("exit", None)


def main():
    parser = argparse.ArgumentParser(description=__doc__, formatter_class=argparse.RawDescriptionHelpFormatter)
    parser.add_argument("--documents", type=int, default=100)
    parser.add_argument("--rounds", type=int, default=5)
    parser.add_argument("--address")
    words = parser.parse_args()
    if words.address:
        host, _, port = words.address.partition(":")
        with Client(None, connected(int(port), host=host)) as client:
            measure(client, words.documents, words.rounds)
    else:
        with started(built("example_toml"), listens=True) as client:
            measure(client, words.documents, words.rounds)


if __name__ == "__main__":
    main()
