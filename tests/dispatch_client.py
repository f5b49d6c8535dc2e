#!/usr/bin/env python3
"""A client that leaves thousands of requests of `lsp_demo serve` pending, cancels half of them in a random order, and releases the rest.

Each id has exactly one reply. A cancelled request gets an error with code -32800, in the order of the cancellations. The others then get
their params, in the order of the requests. The client also cancels requests that do not exist, reuses an id, and ends a session while
requests are pending. It ends in status 1 at the first difference. `.ci/run` calls it.
"""
import random
import sys

sys.dont_write_bytecode = True

from client import BEGUN, ends_well
from lsp import EXIT, SHUTDOWN, SHUTDOWN_REPLY, compact, expect, frame, run_on, started

COUNT = 10_000
SEED = 20261122

RELEASE = b'{"jsonrpc":"2.0","method":"demo/release"}'


def hold(name, params):
    return b'{"jsonrpc":"2.0","id":%s,"method":"demo/hold","params":%s}' % (compact(name), compact(params))


def cancel(name):
    return b'{"jsonrpc":"2.0","method":"$/cancelRequest","params":{"id":%s}}' % compact(name)


def canceled(name):
    return b'{"jsonrpc":"2.0","id":%s,"error":{"code":-32800,"message":"canceled by client"}}' % compact(name)


def result(name, params):
    return b'{"jsonrpc":"2.0","id":%s,"result":%s}' % (compact(name), compact(params))


# Cancellations that name no kept request: without params, and with these.
NO_NAMES = [b"null", b"{}", b"[]", b"[5]", b"5", *(b'{"id":%s}' % it for it in [b"null", b"6", b"5.5", b'"5"', b"[5]"]), b'{"ID":5}']
NO_CANCELLATIONS = [b'{"jsonrpc":"2.0","method":"$/cancelRequest"}']
NO_CANCELLATIONS += [b'{"jsonrpc":"2.0","method":"$/cancelRequest","params":%s}' % it for it in NO_NAMES]
UNKNOWN = b'{"jsonrpc":"2.0","id":7,"error":{"code":-32601,"message":"method not found"}}'
# What is sent, and the replies. An id that comes again replaces the request kept under it, and one that was cancelled is new.
SESSIONS = {
    "cancellations that name no kept request: none is answered": (
        [hold(5, [1]), *NO_CANCELLATIONS, RELEASE], [result(5, [1])],
    ),
    "an id that comes again: one reply, to the last request": (
        [hold(5, ["old"]), hold(6, []), hold(5, ["new"]), RELEASE, hold(5, [1]), cancel(5), hold(5, [2]), RELEASE],
        [result(6, []), result(5, ["new"]), canceled(5), result(5, [2])],
    ),
    "a request of the protocol's own that nobody knows: one reply": (
        [b'{"jsonrpc":"2.0","id":7,"method":"$/x"}', b'{"jsonrpc":"2.0","method":"$/y"}', cancel(7)], [UNKNOWN],
    ),
    "requests that are kept at shutdown: no reply": ([hold(number, [number]) for number in range(10)], []),
}


def whole_session(command, sent, wanted):
    """Sends the messages while it reads, since a program whose replies nobody takes stops reading. Nothing else is written."""
    with started(command) as client:
        client.exchange(BEGUN)
        client.send_bytes(b"".join(frame(body) for body in [*sent, SHUTDOWN, EXIT]), reads=True)
        for reply in [*wanted, SHUTDOWN_REPLY]:
            expect("a reply", client.body(), reply)
        ends_well(client)


def check_many(command):
    """Ids are numbers and texts in turn, in no order, so that neither their order nor their kind is that of the requests."""
    chance = random.Random(SEED)
    ids = [number if number % 2 else f"request {number}" for number in range(COUNT)]
    chance.shuffle(ids)
    dropped = chance.sample(ids, COUNT // 2)
    sent = [hold(name, [name, place]) for place, name in enumerate(ids)]
    sent += [*map(cancel, dropped), *map(cancel, dropped[:100]), RELEASE, *map(cancel, ids[:100]), RELEASE]
    gone = set(dropped)
    wanted = [*map(canceled, dropped), *(result(name, [name, place]) for place, name in enumerate(ids) if name not in gone)]
    whole_session(command, sent, wanted)
    print(f"{COUNT} requests kept, {len(dropped)} cancelled, {COUNT - len(dropped)} released: one reply each")


def check_all(program):
    command = [program, "serve"]
    check_many(command)
    for what, (sent, wanted) in SESSIONS.items():
        whole_session(command, sent, wanted)
        print(what)


if __name__ == "__main__":
    sys.exit(run_on("lsp_demo", __doc__, check_all))
