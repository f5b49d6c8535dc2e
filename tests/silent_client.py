#!/usr/bin/env python3
"""Clients that break the rules of a session or end it, and then stay connected and send nothing. On one thread, in threads and with jobs the
server ends at once and reports why, also at an `exit` that is spelled oddly, and where a header part gives a length that no memory holds. Over
a socket the next client is served while they stay, and the server keeps nothing for them. A client that never sends anything is dropped.

It ends in status 1 at the first difference. `.ci/run` calls it.
"""
import os
import sys
import time
from contextlib import ExitStack

sys.dont_write_bytecode = True

from clients_client import FOR_NO_CLIENT, Listening
from lsp import EXIT, INITIALIZE, INITIALIZED, SHUTDOWN, built, expect, expect_soon, frame, run, started

WAYS = [["example_toml", "inline"], ["example_toml", "threads"], ["example_toml"]]
INITIALIZE, INITIALIZED, SHUTDOWN, EXIT = map(frame, [INITIALIZE, INITIALIZED, SHUTDOWN, EXIT])
REQUEST = frame(b'{"jsonrpc":"2.0","id":9,"method":"demo/noSuchMethod","params":{}}')
SESSIONS = [
    ("a request before `initialized`", INITIALIZE + REQUEST, 1, "expected initialized notification"),
    ("a request behind `shutdown`", INITIALIZE + INITIALIZED + SHUTDOWN + REQUEST, 1, "unexpected message during shutdown"),
    ("no message before `initialized`", INITIALIZE + frame(b"{}"), 1, "read fault"),
    ("`exit` in order", INITIALIZE + INITIALIZED + SHUTDOWN + EXIT, 0, ""),
    ("`exit` without `shutdown`", INITIALIZE + INITIALIZED + EXIT, 1, "the client left without a shutdown"),
]
# The first byte of this content part never comes.
PAST_ALL_MEMORY = b"Content-Length: 18446744073709551615\r\n\r\n"
# Messages that are not `exit`: more is read behind each (JSON-RPC 2.0, section 4; RFC 8259). The request gets an error.
OTHERS = [
    rb'{"method":"$/x","params":[0.5,-1e2,1.25E-3]}',
    rb'{"method":"$/x","params":["\u00e9\ud83d\ude00"]}',
    rb'{"m\u0065thod":"$\/x"}',
    rb'{"method":"exit","method":"$/x"}',
    rb'{"id":7,"method":"exit","params":[1.5]}',
]
# The notification `exit`. A null and a number with a fraction are no ids.
EXITS = [
    rb'{"method":"ex\u0069t"}',
    b'\r\n{ "m\\u0065thod" :\t"exit" } ',
    rb'{"method":"$/x","method":"exit"}',
    rb'{"params":{"a":[0.5,1e2],"method":"$/x"},"method":"exit","id":null}',
    rb'{"params":["\u00e9\ud83d\ude00"],"id":1.5,"method":"\u0065xit"}',
]


def has_ended(program, what, status, text):
    """It ends though its input stays open, and says why."""
    expect(f"the status after {what}", program.status(), status)
    said = program.said()
    expect(f"whether it says why after {what} ({said!r})", text in said and bool(text) == bool(said), True)


def ends_at_once(way):
    for what, sent, status, text in SESSIONS:
        with started(built(*way)) as client:
            client.send_bytes(sent)
            has_ended(client.program, what, status, text)


def ends_at_each_exit(way):
    others = b"".join(map(frame, OTHERS))
    for last in EXITS:
        with started(built(*way)) as client:
            client.send_bytes(INITIALIZE + INITIALIZED + others + SHUTDOWN + frame(last))
            has_ended(client.program, repr(last), 0, "")


def ends_past_all_memory(way):
    with started(built(*way)) as client:
        client.send_bytes(INITIALIZE + INITIALIZED + PAST_ALL_MEMORY)
        has_ended(client.program, "a length that no memory holds", 1, "out of memory")


def ends_where_nobody_reads(way):
    """The client closed what it would read from, and sends on once."""
    with started(built(*way)) as client:
        client.source.close()
        for sent in [INITIALIZE, INITIALIZED + REQUEST]:
            client.send_bytes(sent)
            time.sleep(0.2)
        has_ended(client.program, "the replies are lost", 1, "write fault 1")


def kept(process):
    """How many threads and descriptors a program has."""
    return tuple(len(os.listdir(f"/proc/{process.pid}/{of}")) for of in ("task", "fd"))


def serves_the_next(way):
    """While clients stay that broke the rules, others are served, and nothing is kept for those."""
    with Listening(way) as server, ExitStack() as staying:
        server.is_used()
        for what, sent, _, text in SESSIONS[:3]:
            client = staying.enter_context(server.connect())
            client.send_bytes(sent)
            line = server.says(what)
            expect(f"whether it says why after {what} ({line!r})", text in line, True)
            client.rest()
            server.is_used()
        expect_soon("threads and descriptors while the clients stay", lambda: kept(server.process), (1, FOR_NO_CLIENT))


def gives_way():
    """A client that sends nothing at all is given up, so that the next is served."""
    with ExitStack() as all_of_them:
        servers = [all_of_them.enter_context(Listening(way)) for way in WAYS]
        for server in servers:
            server.is_used()
        for server in servers:
            all_of_them.enter_context(server.connect())
        for way, server in zip(WAYS, servers):
            expect(f"the line of a client that says nothing ({way})", server.says("it"), "read fault 1: the read failed: operation would block")
            server.is_used()


def check_all():
    gives_way()
    print("all ways gives way")
    for way in [*WAYS, ["bench", "session"]]:
        ends_past_all_memory(way)
        print(" ".join(way), "ends past all memory")
    for way in WAYS:
        for check in [ends_at_once, ends_at_each_exit, ends_where_nobody_reads, serves_the_next]:
            check(way)
            print(" ".join(way), check.__name__.replace("_", " "))


if __name__ == "__main__":
    sys.exit(run(check_all))
