#!/usr/bin/env python3
"""Clients of servers that serve one client after another, over a socket. If a session fails, one line goes to standard error, and the next
client is served. Some clients connect and close, send no message, reset, leave without `shutdown`, or stop in the middle. One connects while
the program has no descriptors, and one reads late while the program is stopped and continued.

One of the servers serves two clients at the same time. Each gets its own replies while the other one stays and is silent, and has texts of
its own. A third client waits until one of the two is gone.

Then the same servers are started with the arguments of LSP 3.17 ("Implementation Considerations"): over standard input and output, with a
client that listens at a port or at a socket file, with arguments that are refused, and at addresses where nobody may listen. It ends in
status 1 at the first difference. `.ci/run` calls it.
"""
import json
import resource
import select
import signal
import socket
import struct
import sys
import tempfile
import time
from concurrent.futures import ThreadPoolExecutor
from pathlib import Path

sys.dont_write_bytecode = True

from editor import session
from lsp import HOST, INITIALIZE, INITIALIZED, Client, Program, accepted, built, expect, expect_soon, frame, free_port, run, started

WAYS = [["example_diagnostics"], ["example_toml", "inline"], ["example_toml", "threads"], ["example_toml"]]
LEFT = "the client left without a shutdown"
# The one that serves two clients at the same time.
TWO_AT_ONCE = ["example_toml"]
NOTE = {"uri": "file:///a.toml"}
# A descriptor each for standard input, output and error, and for the socket that listens.
FOR_NO_CLIENT = 4


class Listening(Program):
    """A program that serves the clients of an address."""

    def __init__(self, way):
        super().__init__(built(*way), listens=True)

    def is_used(self):
        """A whole session, with nothing on standard error."""
        with self.connect(answers={}) as client:
            session(client)
        expect("whether it still runs", self.is_up(), True)
        expect("standard error after a whole session", self.lines(), [])


def begin(client):
    client.ask("initialize", {"processId": None, "rootUri": None, "capabilities": {}})
    client.notify("initialized", {})


def comes_and_goes(server):
    server.connect().connection.close()
    expect("the line of a client that sends nothing", server.says("it"), "disconnected channel: the messages ended too early")


def sends_no_message(server):
    with server.connect() as client:
        client.send_bytes(b"GET / HTTP/1.1\r\n\r\n")
        expect("the line of a client that sends no message", server.says("it"), "read fault 4: a header line has no `: `")


def resets(server):
    """It ends its connection so that the system tells the server of an error."""
    with server.connect() as client:
        client.send_bytes(b"Content-Length: 10\r\n\r\n{")
        client.connection.setsockopt(socket.SOL_SOCKET, socket.SO_LINGER, struct.pack("ii", 1, 0))
    lines = {"read fault 1: the read failed: connection reset", "read fault 7: the input ended inside a content part"}
    expect("the line of a client that resets", server.says("it") in lines, True)


def leaves(server):
    with server.connect() as client:
        begin(client)
        client.notify("exit")
        expect("the line of a client that leaves", server.says("it"), LEFT)


def comes_without_descriptors(server):
    """While nothing can be opened the system refuses clients. One that waits is served when that is over.

    The program may have had the descriptor of one more client already, as it waited: so the first that comes is no more than told of.
    """
    process = server.process.pid
    before = resource.prlimit(process, resource.RLIMIT_NOFILE)
    resource.prlimit(process, resource.RLIMIT_NOFILE, (FOR_NO_CLIENT, before[1]))
    with server.connect():
        expect("the first refusal", "Too many open files" in server.says("a client"), True)
    with server.connect(answers={}) as client:
        for _ in range(2):
            expect("a refusal", "Too many open files" in server.says("a client that waits"), True)
        resource.prlimit(process, resource.RLIMIT_NOFILE, before)
        session(client)
    server.lines_seen += len(server.lines())


def reads_late(server):
    """While a write of the server's waits for room, the program is stopped and goes on. No reply is lost."""
    ids = [f"{at}{'x' * 200_000}" for at in range(50)]
    contents = [INITIALIZE, INITIALIZED, *(b'{"jsonrpc":"2.0","id":"%s","method":"demo/noSuchMethod"}' % id.encode() for id in ids)]
    with server.connect() as client:
        with ThreadPoolExecutor(1) as pool:
            sending = pool.submit(client.send_bytes, b"".join(map(frame, contents)))
            for _ in range(4):
                time.sleep(0.5)
                server.process.send_signal(signal.SIGSTOP)
                time.sleep(0.1)
                server.process.send_signal(signal.SIGCONT)
            for content in contents:
                client.watched.sent(json.loads(content))
            for id in [1, *ids]:
                while "method" in (reply := client.message("a reply")):
                    pass
                expect("whether it is the reply that comes next", reply["id"] == id, True)
            sending.result()
        client.last_id = 1
        expect("the reply to shutdown", client.ask("shutdown")["result"], None)
        client.notify("exit")


def is_looked_for(client):
    """Whether the system looks now and then whether this client is still there: its row of the system's table has that timer."""
    (_, here), (_, there) = client.connection.getsockname(), client.connection.getpeername()
    for row in Path("/proc/net/tcp").read_text().splitlines()[1:]:
        _, local, remote, _, _, timer = row.split()[:6]
        if (int(local.split(":")[1], 16), int(remote.split(":")[1], 16)) == (there, here):
            return timer.startswith("02:")
    return False


def goes_without_a_word(server):
    """If its machine is gone, the system finds that out."""
    with server.connect() as client:
        begin(client)
        expect_soon("whether anybody looks for a client that says nothing", lambda: is_looked_for(client))
        client.connection.shutdown(socket.SHUT_RDWR)
    expect("the line of a client that is gone", server.says("it"), LEFT)


def holds(client, text):
    """It opens a text, and the server holds just that."""
    client.notify("textDocument/didOpen", {"textDocument": {**NOTE, "languageId": "toml", "version": 1, "text": text}})
    is_held(client, text)


def is_held(client, text):
    expect("the text of a client", client.ask("toml/text", {"textDocument": NOTE})["result"], text)


def ends(client):
    expect("the reply to shutdown", client.ask("shutdown")["result"], None)
    client.notify("exit")
    client.rest()


def are_served_at_once(way):
    """Two clients that come and go, and a third for which there is no place at first. One of the two fails its session."""
    with Listening(way) as server:
        server.is_used()
        with server.connect(answers={}) as first, server.connect(answers={}) as second, server.connect(answers={}) as third:
            begin(first)
            holds(first, "a = 1\n")
            begin(second)
            holds(second, "b = 2\n")
            third.send(id=1, method="initialize", params={"processId": None, "rootUri": None, "capabilities": {}})
            for _ in range(100):
                is_held(second, "b = 2\n")
                is_held(first, "a = 1\n")
            expect("whether anything came for a client without a place", bool(select.select([third.source], [], [], 0)[0]), False)
            ends(second)
            expect("the id of the reply for the third client", third.message("the reply to initialize")["id"], 1)
            third.notify("initialized", {})
            third.last_id = 1
            holds(third, "c = 3\n")
            is_held(first, "a = 1\n")
            third.notify("exit")
            expect("the line of a client that leaves", server.says("it"), LEFT)
            with server.connect(answers={}) as fourth:
                session(fourth)
            is_held(first, "a = 1\n")
            ends(first)
        server.is_used()


CLIENTS = [comes_and_goes, sends_no_message, resets, leaves, goes_without_a_word, comes_without_descriptors, reads_late]


def serves_all(way):
    with Listening(way) as server:
        server.is_used()
        for client in CLIENTS:
            client(server)
            server.is_used()


def is_started_with_stdio(way):
    """Words that ask for standard input and output, where it ends with its session. An option that LSP does not have is named."""
    for words, line in [
        (["--stdio"], ""),
        (["--stdio", "--clientProcessId=4711"], ""),
        (["--clientProcessId", "4711"], ""),
        (["--strange=1", "--stdio"], "unknown option: --strange=1\n"),
    ]:
        with started(built(*way, *words), answers={}) as client:
            session(client)
            status, _, said = client.end()
            expect(f"the exit status and standard error at {words}", (status, said), (0, line))


def session_of(way, words, listener):
    """A session of a program that connects to the client, and ends with it."""
    with Program(built(*way, *words)) as program:
        with Client(program, accepted(listener), answers={}) as client:
            session(client)
        expect(f"the exit status and what it prints at {words}", program.end(), (0, b"", ""))


def connects_to_a_port(way):
    with socket.create_server((HOST, 0)) as listener:
        port = listener.getsockname()[1]
        for words in [
            [f"--socket={port}"],
            [f"--port={port}", "--clientProcessId=4711"],
            ["--socket", str(port)],
            ["--stdio", "--socket", f"--port={port}"],
        ]:
            session_of(way, words, listener)


def connects_to_a_file(way):
    with tempfile.TemporaryDirectory() as folder, socket.socket(socket.AF_UNIX) as listener:
        name = f"{folder}/client"
        listener.bind(name)
        listener.listen()
        for words in [[f"--pipe={name}"], ["--clientProcessId=4711", "--pipe", name]]:
            session_of(way, words, listener)


def ends_with_a_reason(way, words, line):
    """It ends in status 1, and says why in one line."""
    with Program(built(*way, *words)) as program:
        program.process.stdin.close()
        expect(f"the status, standard output and standard error at {words}", program.end(), (1, b"", line))


def is_refused(way):
    """Words that ask for what can't be had, and ends of a client that are not there."""
    no_port, port = "Error: no port number after `--socket` or `--port`\n", free_port()
    long = f"/{'n' * 60}/client"
    for words, line in [
        (["--node-ipc"], "Error: `--node-ipc` is for programs under node\n"),
        (["--pipe"], "Error: no name after `--pipe`\n"),
        (["--socket"], no_port),
        (["--socket", "--stdio"], no_port),
        (["--port=words"], no_port),
        (["--socket=65536"], no_port),
        ([f"--socket={port}"], f"Error: 127.0.0.1:{port}: connection refused\n"),
        (["--pipe=/nowhere/client"], "Error: /nowhere/client: entity not found\n"),
        ([f"--pipe={long}"], f"Error: {long[-40:]}: entity not found\n"),
    ]:
        ends_with_a_reason(way, words, line)


def can_not_listen(way):
    """An address that is used, and a word that is none."""
    with socket.create_server((HOST, 0)) as used:
        address = "%s:%d" % used.getsockname()
        for word, reason in [(address, "address in use"), ("nonsense", "not an address; see --help")]:
            ends_with_a_reason(way, [word], f"Error: {word}: {reason}\n")


def check_all():
    for way in WAYS:
        for check in [serves_all, is_started_with_stdio, connects_to_a_port, connects_to_a_file, is_refused, can_not_listen]:
            check(way)
            print(" ".join(way), check.__name__.replace("_", " "))
    are_served_at_once(TWO_AT_ONCE)
    print(" ".join(TWO_AT_ONCE), "are served at once")


if __name__ == "__main__":
    sys.exit(run(check_all))
