#!/usr/bin/env python3
"""A client of `lsp_demo serve`: one whole session through pipes, and then sessions with each bad end.

It compares each reply byte for byte, the exit status, and standard error. It prints the messages that it sent and
received, and ends in status 1 at the first difference. If an expected text ends in `..`, its end may be any. `.ci/run` calls it.
"""
import json
import sys
from collections import namedtuple

sys.dont_write_bytecode = True

from lsp import (
    EXIT, INITIALIZE, INITIALIZE_REPLY, INITIALIZED, SHUTDOWN, SHUTDOWN_REPLY, compact, expect, expect_soon, frame, run_on, started,
)

UNAWAITED = 50

ECHO = b'{"jsonrpc":"2.0","id":5,"method":"demo/echo","params":[1]}'
ECHO_REPLY = b'{"jsonrpc":"2.0","id":5,"result":[1]}'
UNKNOWN_REPLY = b'{"jsonrpc":"2.0","id":"x","error":{"code":-32601,"message":"method not found"}}'

NESTED = {
    "emoji": "\U0001f600",
    "empty": [[], {}, "", [[]]],
    "größe": [1, -2, 2.5, {"日本": 'the path "C:\\temp"\nand a tab\t'}],
    "no": False,
    "nothing": None,
}


def expect_text(what, came, wanted):
    """Where `wanted` ends in `..`, it is what has to come first."""
    is_open = wanted.endswith(".." if isinstance(wanted, str) else b"..")
    expect(what, came[: len(wanted) - 2] if is_open else came, wanted[:-2] if is_open else wanted)


def echo_exchange(name, params):
    """A request with spaces and escapes in it. The reply is compact, in UTF-8 and under the same id."""
    sent = json.dumps({"jsonrpc": "2.0", "id": name, "method": "demo/echo", "params": params}).encode()
    return sent, b'{"jsonrpc":"2.0","id":%s,"result":%s}' % (compact(name), compact(params))


WHOLE_SESSION = [
    (
        b'{"jsonrpc":"2.0","id":"early","method":"demo/echo","params":[0]}',
        b'{"jsonrpc":"2.0","id":"early","error":{"code":-32002,"message":"expected initialize request, got ..',
    ),
    (INITIALIZE, INITIALIZE_REPLY),
    (INITIALIZED, None),
    (ECHO, ECHO_REPLY),
    echo_exchange("größe", NESTED),
    echo_exchange(-2147483648, [[[["deep", "é"]]]]),
    (b'{"jsonrpc":"2.0","id":7,"method":"demo/echo"}', b'{"jsonrpc":"2.0","id":7,"result":null}'),
    (b'{"jsonrpc":"2.0","method":"demo/unknown","params":{"a":1}}', None),
    (b'{"jsonrpc":"2.0","id":99,"result":"for no request of the server"}', None),
    (b'{"jsonrpc":"2.0","id":"x","method":"foo"}', UNKNOWN_REPLY),
    (SHUTDOWN, SHUTDOWN_REPLY),
    (EXIT, None),
]


def ends_well(client):
    """The program ends with status 0, and has nothing more to say."""
    expect("the status, what followed the last reply, and standard error", client.end(), (0, b"", ""))


def check_session(start):
    with start() as client:
        for sent, wanted in WHOLE_SESSION:
            print("->", sent.decode())
            client.send_bytes(frame(sent))
            if wanted is not None:
                reply = client.body()
                print("<-", reply.decode())
                expect_text("a reply", reply, wanted)
        ends_well(client)


# What a client sends, each with the reply that it awaits, why the program ends, and whether the client closes its end before.
BadEnd = namedtuple("BadEnd", "name exchanges text closes", defaults=[False])


def sends(data, reply=None):
    return [(data, reply)]


ASKED = sends(frame(INITIALIZE), INITIALIZE_REPLY)
BEGUN = ASKED + sends(frame(INITIALIZED))
ECHOED = BEGUN + sends(frame(ECHO), ECHO_REPLY)
ENDED = BEGUN + sends(frame(SHUTDOWN), SHUTDOWN_REPLY)
BAD_ENDS = [
    BadEnd("rubbish in the place of a header", sends(b"rubbish\r\n"), "read fault 4"),
    BadEnd("a header without a space", ECHOED + sends(b"Content-Length:2\r\n\r\n{}"), "read fault 4"),
    BadEnd("a line without a carriage return", sends(b"Content-Length: 2\n\n{}"), "read fault 3"),
    BadEnd("a header without a length", sends(b"Content-Type: a\r\n\r\n{}"), "read fault 6"),
    BadEnd("a length past all memory", sends(b"Content-Length: 18446744073709551615\r\n\r\n{}"), "read fault 11"),
    BadEnd("a body that is no JSON", sends(frame(b"{")), "read fault 9"),
    BadEnd("a body that is no message", BEGUN + sends(frame(b"{}")), "read fault 10"),
    BadEnd("a message that is cut off", ECHOED + sends(frame(ECHO)[:-1]), "read fault 7", closes=True),
    BadEnd("no message at all", [], "disconnected channel", closes=True),
    BadEnd("the end before `initialized`", ASKED, "disconnected channel", closes=True),
    BadEnd("the end without shutdown", ECHOED, "ended without shutdown", closes=True),
    BadEnd("`exit` without shutdown", ECHOED + sends(frame(EXIT)), "ended without shutdown"),
    BadEnd("`exit` in the place of `initialize`", sends(frame(EXIT)), "expected initialize request, got .."),
    BadEnd("no `initialized`", ASKED + sends(frame(ECHO)), "expected initialized notification, got: .."),
    BadEnd("the end after shutdown", ENDED, "channel disconnected waiting for exit notification", closes=True),
    BadEnd("another message after shutdown", ENDED + sends(frame(ECHO)), "unexpected message during shutdown: .."),
]


def ends_badly(client, text, replies=b""):
    """The program ends with status 1, and says why in one line on standard error."""
    status, rest, errors = client.end()
    expect_text("standard error", errors, f"lsp_demo: {text}" if text.endswith("..") else f"lsp_demo: {text}\n")
    expect("lines on standard error", errors.count("\n"), 1)
    expect("the status, and what followed the last reply", (status, rest), (1, replies))


def check_bad_end(start, case):
    print(case.name)
    with start() as client:
        client.exchange(case.exchanges)
        if case.closes:
            client.close_input()
        ends_badly(client, case.text)


def check_unawaited(start):
    """Each bad end again and again, by a client that sends everything at once: all replies come nevertheless."""
    for case in BAD_ENDS:
        sent = b"".join(data for data, _ in case.exchanges)
        wanted = b"".join(frame(reply) for _, reply in case.exchanges if reply is not None)
        for _ in range(UNAWAITED):
            with start() as client:
                client.send_bytes(sent)
                if case.closes:
                    client.close_input()
                status, rest, errors = client.end()
            expect(f"the replies before {case.name}", rest, wanted)
            expect("the status, and lines on standard error", (status, errors.count("\n")), (1, 1))
    print(f"bad ends with no wait for a reply, {UNAWAITED} times each: every reply came")


def check_closed_output(command):
    """The client reads nothing at all, and ends its own output after a request."""
    print("a closed standard output")
    with started(command) as client:
        client.source.close()
        client.send_bytes(frame(INITIALIZE) + frame(INITIALIZED) + frame(ECHO))
        client.close_input()
        ends_badly(client, "write fault 1")


def check_output_closed_midway(command):
    """The client stops reading in the middle of a session, and goes on to write until the program is gone."""
    print("a standard output that is closed in the middle of a session")
    with started(command) as client:
        client.exchange(ECHOED)
        client.source.close()
        expect_soon("whether it still runs", lambda: client.send_bytes(frame(ECHO)) or client.program.is_up(), False)
        ends_badly(client, "channel closed")


def check_all(program):
    command = [program, "serve"]
    start = lambda: started(command)
    check_session(start)
    for case in BAD_ENDS:
        check_bad_end(start, case)
    check_unawaited(start)
    check_closed_output(command)
    check_output_closed_midway(command)


if __name__ == "__main__":
    sys.exit(run_on("lsp_demo", __doc__, check_all))
