#!/usr/bin/env python3
"""A client that sends and never reads: the memory that this costs in each mode of a session.

It sends 60 requests of 256 KB, or of `--length` bytes, whose replies have their params, and reads no reply. When nothing moves any longer, it
notes the peak of the program's resident memory (Linux, `VmHWM`), and reads the first replies, which shows that the program was busy. Lists of
`{"":0}` and lists of lists take the most memory for a byte, and a string the least.

With `--searches` it requests so many lists of symbols of 1.4 MB each from `example_toml`, reads none, and notes how much more memory
the program has then than before (`VmRSS`), for each byte of the results. `--times` is the most that is allowed. `.ci/run` calls it.
"""
import argparse
import json
import math
import os
import select
import sys
import time
from pathlib import Path

sys.dont_write_bytecode = True

from lsp import INITIALIZE, INITIALIZED, built, compact, expect, frame, run, started

# A symbol takes some 140 bytes.
KEYS = 10_000
LENGTH = 256_000
COUNT = 60
FIRST_ID = 100_000
# For how many seconds nothing moves before the peak is noted, and for how many in all it is waited at most.
STILL = 2
LONGEST = 120
# How each way is run: `lsp_demo serve` is a loop over a connection.
WAYS = {
    "session": built("bench", "session"),
    "run_threads": built("bench", "threads", "run_threads"),
    "Connection": built("lsp_demo", "serve"),
}


def filled(item):
    """About so many bytes: the item as often as it fits, with commas between."""
    return lambda length: b"[" + b",".join([item] * (length // (len(item) + 1))) + b"]"


PARAMS = {
    '`{"":0}`': filled(b'{"":0}'),
    "lists": filled(b"[]"),
    "numbers": filled(b"1"),
    "string": lambda length: b'["' + b"x" * length + b'"]',
}


def is_asleep(process):
    """Whether all threads of a process wait for something else than a processor."""
    states = [path.read_text().rpartition(")")[2].split()[0] for path in Path(f"/proc/{process.pid}/task").glob("*/stat")]
    return all(state == "S" for state in states)


def send_unread(client, bodies):
    """Sends until nothing moves any more: how many of the bytes were sent. A program that has gone takes all: its memory tells."""
    rest = memoryview(b"".join(map(frame, bodies)))
    whole, end, since = len(rest), time.monotonic() + LONGEST, time.monotonic()
    while time.monotonic() < min(end, since + STILL):
        if rest and select.select([], [client.sink], [], 0)[1]:
            try:
                rest = rest[os.write(client.sink.fileno(), rest[: 1 << 16]) :]
            except BrokenPipeError:
                rest = rest[:0]
        elif is_asleep(client.program.process):
            time.sleep(0.01)
            continue
        since = time.monotonic()
    return whole - len(rest)


def peak(command, params):
    """The peak memory, and how many of the bytes were sent."""
    bodies = [b'{"jsonrpc":"2.0","id":%d,"method":"demo/echo","params":%s}' % (FIRST_ID + number, params) for number in range(COUNT)]
    with started(command) as client:
        sent = send_unread(client, [INITIALIZE, INITIALIZED, *bodies])
        most = client.program.memory("VmHWM")
        # It was not idle: the first replies were waiting.
        for id in [1, FIRST_ID]:
            expect("the id of a reply that waited", json.loads(client.body(f"the reply to {id}"))["id"], id)
        return most, sent


def search(number):
    return compact({"jsonrpc": "2.0", "id": number, "method": "workspace/symbol", "params": {"query": "h"}})


def searched(count):
    """How much memory results that nobody reads take, and how many bytes they have."""
    text = "".join(f"heading_{number} = 1\n" for number in range(KEYS))
    document = {"uri": "file:///a.toml", "languageId": "toml", "version": 1, "text": text}
    opened = {"jsonrpc": "2.0", "method": "textDocument/didOpen", "params": {"textDocument": document}}
    with started(built("example_toml", "--stdio")) as client:
        client.send_bytes(b"".join(map(frame, [INITIALIZE, INITIALIZED, compact(opened), search(FIRST_ID)])))
        # The reply to `initialize`, what is wrong with the text, and the symbols.
        length = max(len(client.body()) for _ in range(3))
        before = client.program.memory("VmRSS")
        send_unread(client, [search(FIRST_ID + 1 + number) for number in range(count)])
        taken = client.program.memory("VmRSS") - before
        for _ in range(count):
            expect("the length of a result that waited", len(client.body("a result")), length)
        return taken, count * length


def look_at_searches(count, times):
    """The results may take so many times the memory of their text."""
    taken, length = searched(count)
    print(f"{count} results of jobs that nobody reads, {length / 1e6:.1f} MB: {taken / 1e6:.1f} MB more, {taken / length:.1f} times that")
    expect(f"whether it took more than {times} times that", taken > times * length, False)


def look_at_ways(arguments):
    """No way may take more memory than that."""
    for name in arguments.params:
        for way in arguments.ways:
            most, sent = peak(WAYS[way], PARAMS[name](arguments.length))
            print(f"{way}, {COUNT} requests of {arguments.length} bytes, {name}: peak {most / 1e6:.1f} MB, {sent / 1e6:.1f} MB sent", flush=True)
            expect(f"whether {way} took more than {arguments.most} MB", most > arguments.most * 1e6, False)


if __name__ == "__main__":
    parser = argparse.ArgumentParser(description=__doc__, formatter_class=argparse.RawDescriptionHelpFormatter)
    parser.add_argument("--ways", nargs="+", default=list(WAYS), choices=WAYS)
    parser.add_argument("--params", nargs="+", default=list(PARAMS), choices=PARAMS)
    parser.add_argument("--length", type=int, default=LENGTH, help="how many bytes a request has")
    parser.add_argument("--most", type=float, default=math.inf, help="fail where a way takes more MB than this")
    parser.add_argument("--searches", type=int, help="how many results of jobs are to wait, in place of the ways")
    parser.add_argument("--times", type=float, default=math.inf, help="fail where these take more memory than so many times their text")
    words = parser.parse_args()
    sys.exit(run(lambda: look_at_ways(words) if words.searches is None else look_at_searches(words.searches, words.times)))
