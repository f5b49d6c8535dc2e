"""The code that all clients share: frames, the start and the end of a program, a client of it, and the verdict.

A client waits at most PATIENCE seconds for a program. The environment may set fewer, to try a program that hangs.
"""
import argparse
import json
import os
import re
import select
import signal
import socket
import subprocess
import sys
import tempfile
import time
import traceback
from contextlib import contextmanager
from functools import cached_property
from pathlib import Path

CRATES = Path(__file__).resolve().parent.parent / "crates"
HOST = "127.0.0.1"
# Long, so that a busy machine changes nothing: it only bounds how long a program that is wrong is waited for.
PATIENCE = float(os.environ.get("PATIENCE", 300))
# The same for all that a client does.
LONGEST = 12 * PATIENCE
# A header as our programs write it, and any that LSP allows.
HEADER = re.compile(rb"Content-Length: (0|[1-9][0-9]*)\r\n\r\n")
ANY_HEADER = re.compile(rb"(?:[!-9;-~]+:[^\r\n]*\r\n)*?Content-Length:[ \t]*([0-9]+)[ \t]*\r\n(?:[!-9;-~]+:[^\r\n]*\r\n)*\r\n", re.I)
LONGEST_HEADER = 200
# How much of a value a line shows.
MOST_SHOWN = 1000

INITIALIZE = b'{"jsonrpc":"2.0","id":1,"method":"initialize","params":{"processId":null,"rootUri":null,"capabilities":{}}}'
INITIALIZE_REPLY = b'{"jsonrpc":"2.0","id":1,"result":{"capabilities":{}}}'
INITIALIZED = b'{"jsonrpc":"2.0","method":"initialized","params":{}}'
SHUTDOWN = b'{"jsonrpc":"2.0","id":2,"method":"shutdown"}'
SHUTDOWN_REPLY = b'{"jsonrpc":"2.0","id":2,"result":null}'
EXIT = b'{"jsonrpc":"2.0","method":"exit"}'


class Difference(Exception):
    """A program did something else than it should."""


class Members(dict):
    """An object of a message. To look for a member that is not there is a difference."""

    def __missing__(self, key):
        raise Difference(f"there is no {key} in {shown(dict(self), 0)}")


def expect(what, came, wanted):
    if came != wanted:
        is_text = isinstance(came, (bytes, str)) and isinstance(wanted, type(came))
        at = max(0, len(os.path.commonprefix([came, wanted])) - MOST_SHOWN // 2) if is_text and len(came) + len(wanted) > MOST_SHOWN else 0
        raise Difference(f"{what}: {shown(came, at)} in place of {shown(wanted, at)}" + f" (from {at} on)" * bool(at))


def shown(value, at):
    text = repr(value[at : at + MOST_SHOWN] if at else value)
    return text if len(text) <= 2 * MOST_SHOWN else text[: 2 * MOST_SHOWN] + ".."


def frame(body):
    return b"Content-Length: %d\r\n\r\n%s" % (len(body), body)


def compact(value):
    return json.dumps(value, **COMPACT).encode()


# JSON without spaces, in UTF-8.
COMPACT = {"separators": (",", ":"), "ensure_ascii": False}


def take_frame(data, header=HEADER):
    """Takes the next frame away from these bytes: its header and its body, or None if it is not whole yet."""
    found = header.match(data)
    if not found or len(data) < found.end() + int(found[1]):
        return None
    head, body = bytes(data[: found.end()]), bytes(data[found.end() : found.end() + int(found[1])])
    del data[: len(head) + len(body)]
    return head, body


def bodies(data):
    """The bodies of the frames that these bytes consist of."""
    data, found = bytearray(data), []
    while taken := take_frame(data):
        found.append(taken[1])
    expect("bytes that are no frame", bytes(data), b"")
    return found


def built(name, *words):
    """The program of a crate, as `rt ci` builds it, and the words that it is started with."""
    return [str(CRATES / name / "out" / name), *words]


def free_port():
    with socket.socket() as free:
        free.bind((HOST, 0))
        return free.getsockname()[1]


def listens(port):
    """Whether a program listens at the port. It is not connected to, since a server may take one client."""
    rows = [line.split() for line in Path("/proc/net/tcp").read_text().splitlines()[1:]]
    return any(int(row[1].partition(":")[2], 16) == port and row[3] == "0A" for row in rows)


def connected(port, is_up=lambda: True, host=HOST):
    """A connection to a program, as soon as it listens."""
    deadline = time.monotonic() + PATIENCE
    while True:
        try:
            connection = socket.create_connection((host, port), timeout=PATIENCE)
            connection.setsockopt(socket.IPPROTO_TCP, socket.TCP_NODELAY, 1)
            return connection
        except ConnectionRefusedError:
            if not is_up() or time.monotonic() > deadline:
                raise Difference(f"nobody listens at {host}:{port}" + (f" after {PATIENCE:g} seconds" if is_up() else ": it ended")) from None
            time.sleep(0.01)


def accepted(listener):
    """The connection of the program that connects to this end."""
    listener.settimeout(PATIENCE)
    try:
        return listener.accept()[0]
    except TimeoutError:
        raise Difference(f"it did not connect within {PATIENCE:g} seconds") from None


def read_to_end(source):
    """All that comes until the other side has closed."""
    came, deadline = bytearray(), time.monotonic() + PATIENCE
    while piece := read_piece(source, deadline, "the end of its output"):
        came += piece
    return bytes(came)


def read_piece(source, deadline, what):
    """What comes next: nothing at the end."""
    if not select.select([source], [], [], max(0, deadline - time.monotonic()))[0]:
        raise Difference(f"{what} did not come within {PATIENCE:g} seconds")
    try:
        return os.read(source.fileno(), 1 << 20)
    except ConnectionResetError:
        return b""


def expect_soon(what, see, wanted=True):
    """What is to be seen sooner or later."""
    deadline = time.monotonic() + PATIENCE
    while (seen := see()) != wanted and time.monotonic() < deadline:
        time.sleep(0.01)
    expect(f"{what}, after {PATIENCE:g} seconds", seen, wanted)


class Program:
    """A program that was started. With `listens` its words end in an address, at which it then listens."""

    last = None  # the one that was started or asked last, which a difference is about

    def __init__(self, command, listens=False, port=None, environment=None, source=subprocess.PIPE):
        self.port = free_port() if listens else port
        self.command = [*map(str, command), *([f"{HOST}:{self.port}"] if listens else [])]
        self.name, self.lines_seen = " ".join([Path(self.command[0]).name, *self.command[1:]]), 0
        Program.last = self
        self.errors = tempfile.TemporaryFile()
        try:
            self.process = subprocess.Popen(
                self.command, stdin=source, stdout=subprocess.PIPE, stderr=self.errors, bufsize=0, env=environment
            )
        except OSError as fault:
            raise Difference(f"{self.command[0]} does not start ({fault.strerror}): `rt run` in its crate's folder builds it") from None

    def __enter__(self):
        return self

    def __exit__(self, *_):
        self.process.kill()
        self.process.wait()
        for file in filter(None, [self.process.stdin, self.process.stdout, self.errors]):
            file.close()

    def is_up(self):
        return self.process.poll() is None

    def memory(self, name):
        """A figure of its memory, in bytes, by its name in the system's table of a process."""
        found = re.search(rf"^{name}:\s*(\d+) kB$", Path(f"/proc/{self.process.pid}/status").read_text(), re.M)
        if not found:
            raise Difference(f"it has ended, though it was not asked to, with {self.said()!r} on standard error")
        return int(found[1]) * 1024

    def said(self):
        """All that it said on standard error. It is read at a place of its own: a seek would move the place where the program writes."""
        return os.pread(self.errors.fileno(), os.fstat(self.errors.fileno()).st_size, 0).decode(errors="backslashreplace")

    def lines(self):
        """The lines on standard error that were not looked at."""
        return self.said().splitlines()[self.lines_seen :]

    def says(self, what):
        """The next line on standard error, as soon as it is there."""
        Program.last = self
        is_whole = lambda: self.said().count("\n") > self.lines_seen
        expect_soon(f"whether a line on standard error is about {what}", lambda: is_whole() or not self.is_up())
        if not is_whole():
            raise Difference(f"it ended without a line on standard error about {what}")
        self.lines_seen += 1
        return self.said().splitlines()[self.lines_seen - 1]

    def status(self):
        try:
            return self.process.wait(PATIENCE)
        except subprocess.TimeoutExpired:
            raise Difference(f"it still ran after {PATIENCE:g} seconds, where it should have ended") from None

    def end(self):
        """Its status, what it printed and nobody took, and what it said on standard error."""
        printed = b"" if self.process.stdout.closed else read_to_end(self.process.stdout)
        return self.status(), printed, self.said()

    def connect(self, answers=None):
        """A client: through pipes, or at its port as soon as it listens there."""
        Program.last = self
        return Client(self, self.port and connected(self.port, self.is_up), answers)


class Client:
    """One side of a connection, to the pipes of a program or through a socket: bytes, frames and messages that go and come.

    A server's own requests are given like all that comes; or they get their results from `answers`, by their methods, or else null.
    """

    watch = None  # what looks at the messages of a session, and judges it at the end: `watched.py` sets it
    header = HEADER
    layout = {}  # how messages are written as JSON

    def __init__(self, program, connection=None, answers=None):
        self.program, self.connection, self.answers = program, connection, answers
        self.source, self.sink = (connection, connection) if connection else (program.process.stdout, program.process.stdin)
        for end in [self.source, self.sink]:
            os.set_blocking(end.fileno(), False)
        self.received, self.is_over = bytearray(), False
        self.last_id = 0
        self.notices = []  # the notifications that came and were not looked at

    def __enter__(self):
        return self

    def __exit__(self, *_):
        if self.connection:
            self.connection.close()

    # Bytes.

    def send_bytes(self, data, reads=False):
        """Sends them, unless the program has gone: how it went is told by `end`. With `reads` it also takes what comes meanwhile."""
        rest = memoryview(data)
        while rest:
            readable, writable, _ = select.select([self.source] if reads and not self.is_over else [], [self.sink], [], PATIENCE)
            if not readable and not writable:
                raise Difference(f"it did not read the last {len(rest)} bytes within {PATIENCE:g} seconds")
            if readable:
                self.read_more(time.monotonic(), "what it writes")
            if writable:
                try:
                    rest = rest[os.write(self.sink.fileno(), rest[: 1 << 20]) :]
                except (BrokenPipeError, ConnectionResetError):
                    return

    def close_input(self):
        """Tells the program that nothing more comes."""
        if self.connection:
            self.connection.shutdown(socket.SHUT_WR)
        else:
            self.sink.close()

    def read_more(self, deadline, what):
        piece = read_piece(self.source, deadline, what)
        self.received += piece
        self.is_over = not piece

    def receive(self, wanted):
        """The next bytes have to be these."""
        deadline = time.monotonic() + PATIENCE
        while len(self.received) < len(wanted) and not self.is_over:
            self.read_more(deadline, shown(wanted[:MOST_SHOWN], 0))
        came = bytes(self.received[: len(wanted)])
        del self.received[: len(wanted)]
        expect("what came", came, wanted)

    def rest(self):
        """All that comes up to the end of its output."""
        if not self.is_over and not (self.source.closed if self.connection is None else self.source.fileno() < 0):
            self.received += read_to_end(self.source)
        self.is_over, came = True, bytes(self.received)
        self.received.clear()
        return came

    def end(self):
        """The program's status, what it wrote that was not taken, and what it said on standard error."""
        rest = self.rest()
        status, printed, said = self.program.end()
        expect("standard output", printed, b"")
        return status, rest, said

    # Frames.

    def frame(self, what="a reply"):
        """The header and the body of the next frame."""
        deadline = time.monotonic() + PATIENCE
        while not (taken := take_frame(self.received, self.header)):
            came = bytes(self.received[:LONGEST_HEADER])
            if len(self.received) > LONGEST_HEADER and not self.header.match(self.received):
                raise Difference(f"no header in the place of {what}: {came!r}")
            begun = f"{what} began with {came!r}, and the rest" if came else what
            if self.is_over:
                raise Difference(f"{begun} did not come: its output ended, {self.last_words()}")
            self.read_more(deadline, begun)
        return taken

    def last_words(self):
        """How a program ended that was not meant to."""
        try:
            return "with status %s and %r on standard error" % self.program.end()[::2] if self.program else "which this did not start"
        except Difference as difference:
            return str(difference)

    def body(self, what="a reply"):
        return self.frame(what)[1]

    def exchange(self, exchanges):
        """Sends each of these bytes, and has to get the reply that stands beside them, if one does."""
        for sent, wanted in exchanges:
            self.send_bytes(sent)
            if wanted is not None:
                expect("a reply", self.body(), wanted)

    # Messages (LSP 3.17, "Base Protocol").

    @cached_property
    def watched(self):
        return self.watch()

    def look(self, message):
        """What is done with each message that comes."""
        if self.watch:
            expect("what is wrong with the type of a message", self.watched.came(message), [])

    def send(self, **message):
        message = {"jsonrpc": "2.0", **message}
        if self.watch:
            self.watched.sent(message)
        self.send_bytes(frame(json.dumps(message, **self.layout).encode()), reads=True)

    def notify(self, method, params=None):
        self.send(method=method, **({} if params is None else {"params": params}))

    def request(self, method, params=None):
        """Sends a request, and gives its id."""
        self.last_id += 1
        self.send(id=self.last_id, method=method, **({} if params is None else {"params": params}))
        return self.last_id

    def message(self, what="a message"):
        """The next message."""
        while True:
            message = json.loads(self.body(what), object_hook=Members)
            self.look(message)
            if self.answers is None or "method" not in message or "id" not in message:
                return message
            self.send(id=message["id"], result=self.answers.get(message["method"]))

    def ask(self, method, params=None):
        """Sends a request, and gives the reply. Notifications that come before it are kept for `notice`."""
        id = self.request(method, params)
        while "method" in (message := self.message(f"the reply to {method}")):
            self.notices.append(message)
        expect(f"the id of the reply to {method}", message["id"], id)
        return message

    def notice(self, method):
        """The params of the first notification with this method that was not looked at, else of the next one to come."""
        for at, message in enumerate(self.notices):
            if message["method"] == method:
                return self.notices.pop(at).get("params")
        while (message := self.message(method)).get("method") != method:
            self.notices.append(message)
        return message.get("params")

    def leaves(self):
        """Ends its session in order: nothing follows the reply to `shutdown`, and the program has nothing to say and goes on."""
        self.exchange([(frame(SHUTDOWN), SHUTDOWN_REPLY), (frame(EXIT), None)])
        expect("after the last reply", self.rest(), b"")
        expect("whether it still runs, for the next client", self.program.is_up(), True)
        expect("standard error", self.program.said(), "")


@contextmanager
def started(command, listens=False, answers=None):
    """The client of a program that ends with it."""
    with Program(command, listens) as program, program.connect(answers) as client:
        yield client


def told(fault):
    """A line of what went wrong. What no check looked for is told with its place in the client."""
    if isinstance(fault, Difference):
        return str(fault)
    places = [it for it in traceback.extract_tb(fault.__traceback__) if Path(it.filename).parent == Path(__file__).parent]
    return f"{type(fault).__name__}: {fault} ({Path(places[-1].filename).name}:{places[-1].lineno})"


def is_late(*_):
    raise Difference(f"all was not done within {LONGEST:g} seconds")


def run(*checks):
    """Makes the checks, has the sessions judged, and only then says how it went. It gives the exit status."""
    script = "/".join(Path(sys.argv[0]).resolve().parts[-2:])
    sys.stdout.reconfigure(line_buffering=True)  # what went before a failure stands before it in a log
    signal.signal(signal.SIGALRM, is_late)
    signal.setitimer(signal.ITIMER_REAL, LONGEST)
    try:
        for check in checks:
            check()
        Program.last = None
        if Client.watch:
            Client.watch.judge()
    except Exception as fault:
        of = f"{Program.last.name}: " if Program.last else ""
        print(f"{script}: FAILED: {of}{told(fault)}", file=sys.stderr)
        return 1
    print("as it should be")
    return 0


def run_on(program, description, check_all):
    """The same of one check, with the program that the words name."""
    parser = argparse.ArgumentParser(description=description, formatter_class=argparse.RawDescriptionHelpFormatter)
    parser.add_argument("--program", type=Path, default=built(program)[0], help="the program that is tried")
    words = parser.parse_args()
    return run(lambda: check_all(words.program))
