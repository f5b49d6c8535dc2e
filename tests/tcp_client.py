#!/usr/bin/env python3
"""A client of `lsp_demo tcp` on 127.0.0.1: the sessions of client.py through a socket, and cases that only a socket has: clients that send
single bytes, stall, reset, flood, close one direction or never read.

It compares each reply byte for byte, the exit status, and standard error. It ends in status 1 at the first difference. `.ci/run` calls it.
"""
import select
import socket
import statistics
import struct
import sys
import time

sys.dont_write_bytecode = True

from client import (
    ASKED, BAD_ENDS, BEGUN, ECHO, ECHO_REPLY, ECHOED, WHOLE_SESSION, check_bad_end, check_session, check_unawaited, ends_badly,
    ends_well, expect_text,
)
from lsp import (
    EXIT, HOST, INITIALIZE, INITIALIZE_REPLY, INITIALIZED, PATIENCE, SHUTDOWN, SHUTDOWN_REPLY, Difference, bodies, expect, frame,
    run_on, started,
)
from unread_client import is_asleep, send_unread

MEGABYTE = 1_000_000
# A reply that waits for an acknowledgement of the one before comes after some 40 ms, whatever else the machine does.
LONGEST_BURST = 0.02
BURST_ROUNDS = 100
SLOW_BYTES = 4
STALL = 3
FLOOD = 100_000


def long_echo(size):
    return b'{"jsonrpc":"2.0","id":6,"method":"demo/echo","params":["%s"]}' % (b"x" * size)


def served(program):
    return started([program, "tcp"], listens=True)


def check_pieces(program):
    """A whole session, a byte at a time, by a client that says at once that nothing more comes."""
    with served(program) as client:
        for byte in b"".join(frame(sent) for sent, _ in WHOLE_SESSION):
            client.send_bytes(bytes([byte]))
        client.close_input()
        status, rest, errors = client.end()
    wanted = [reply for _, reply in WHOLE_SESSION if reply is not None]
    came = bodies(rest)
    expect("the number of replies", len(came), len(wanted))
    for body, reply in zip(came, wanted):
        expect_text("a reply", body, reply)
    expect("the status and standard error", (status, errors), (0, ""))


def check_slow(program):
    """A message comes a byte a second at first, and then stops for a while in its midst."""
    with served(program) as client:
        client.exchange(BEGUN)
        message = frame(ECHO)
        for byte in message[:SLOW_BYTES]:
            client.send_bytes(bytes([byte]))
            time.sleep(1)
        client.send_bytes(message[SLOW_BYTES:-1])
        time.sleep(STALL)
        expect("what came before the last byte", select.select([client.source], [], [], 0)[0], [])
        client.exchange([(message[-1:], ECHO_REPLY), (frame(SHUTDOWN), SHUTDOWN_REPLY), (frame(EXIT), None)])
        ends_well(client)


def check_half_closed(program):
    """The client says that nothing more comes, and then reads."""
    with served(program) as client:
        client.send_bytes(frame(INITIALIZE) + frame(INITIALIZED) + frame(ECHO) * 10)
        client.close_input()
        ends_badly(client, "ended without shutdown", frame(INITIALIZE_REPLY) + frame(ECHO_REPLY) * 10)


def check_flood(program):
    """Requests come as fast as they are taken, by a client that reads at the same time."""
    with served(program) as client:
        client.exchange(BEGUN)
        start = time.monotonic()
        client.send_bytes(frame(ECHO) * FLOOD + frame(SHUTDOWN), reads=True)
        client.receive(frame(ECHO_REPLY) * FLOOD + frame(SHUTDOWN_REPLY))
        print(f"a client that floods: {FLOOD} requests in {time.monotonic() - start:.1f} seconds")
        client.send_bytes(frame(EXIT))
        ends_well(client)


def check_one_client(program):
    """While a client is served no other is taken."""
    with served(program) as client:
        client.exchange(BEGUN)
        try:
            socket.create_connection((HOST, client.program.port), timeout=PATIENCE).close()
        except ConnectionRefusedError:
            print("    refused")
        else:
            raise Difference("a second client was taken")
        client.exchange(ECHOED[len(BEGUN) :])


def check_gone(program, name, sent, text, resets=False):
    """The client is gone as a whole, by a reset or not."""
    print(name)
    with served(program) as client:
        client.exchange(sent)
        if resets:
            client.connection.setsockopt(socket.SOL_SOCKET, socket.SO_LINGER, struct.pack("ii", 1, 0))
        client.connection.close()
        ends_badly(client, text)


def check_never_reads(program):
    """The client sends until nothing more is taken, reads nothing, and is gone."""
    with served(program) as client:
        taken = send_unread(client, [INITIALIZE, INITIALIZED, *[long_echo(MEGABYTE)] * 100])
        expect(f"whether it is held back after {taken} bytes", taken < 100 * MEGABYTE and is_asleep(client.program.process), True)
        print(f"    held back after {taken / MEGABYTE:.1f} MB")
        client.connection.close()
        ends_badly(client, "channel closed")


def check_never_reads_and_stays(program):
    """The client ends its session, and stays without having read a long reply. The program gives it up by a clock of its own, after half a
    minute."""
    with served(program) as client:
        client.exchange(BEGUN)
        client.send_bytes(b"".join(map(frame, [long_echo(10 * MEGABYTE), SHUTDOWN, EXIT])))
        expect("the status, standard output and standard error", client.program.end(), (1, b"", "lsp_demo: write fault 1\n"))


def burst_times(client):
    """How long it takes, again and again, until two requests that come together have their replies."""
    times = []
    for _ in range(101):
        start = time.perf_counter()
        client.exchange([(frame(ECHO) * 2, ECHO_REPLY), (b"", ECHO_REPLY)])
        times.append(time.perf_counter() - start)
    return times


def check_burst(program):
    """Requests that come together are answered together: no reply waits until the one before was acknowledged. A busy machine may hold
    some rounds up, and a reply that waits holds all of them up."""
    with served(program) as client:
        client.exchange(BEGUN)
        for round_number in range(1, BURST_ROUNDS + 1):
            median = statistics.median(burst_times(client))
            if median <= LONGEST_BURST:
                break
        else:
            raise Difference("the second reply was held back")
    print(f"two requests together: both replies after {median * 1e6:.0f} us, the median of 101, in round {round_number}")


def check_no_address(program, address):
    """An address at which it can't listen."""
    print(f"the address {address}")
    with started([program, "tcp", address]) as client:
        expect("the status, standard output and standard error", client.end(), (1, b"", "lsp_demo: socket fault\n"))


def check_all(program):
    start = lambda: served(program)
    check_session(start)
    for case in BAD_ENDS:
        check_bad_end(start, case)
    check_unawaited(start)
    for check in [check_pieces, check_slow, check_half_closed, check_flood, check_one_client]:
        print(check.__doc__)
        check(program)
    check_gone(program, "a client that is gone in the middle of a message", ECHOED + [(frame(ECHO)[:-1], None)], "read fault 7")
    check_gone(program, "a client that is gone in the middle of a header", ASKED + [(b"Content-", None)], "read fault 3")
    check_gone(program, "a client that resets its connection", ECHOED, "read fault 1", resets=True)
    for check in [check_never_reads, check_never_reads_and_stays, check_burst]:
        print(check.__doc__)
        check(program)
    check_no_address(program, HOST)
    with socket.create_server((HOST, 0)) as used:
        check_no_address(program, "%s:%d" % used.getsockname())


if __name__ == "__main__":
    sys.exit(run_on("lsp_demo", __doc__, check_all))
