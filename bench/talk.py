"""Runs a program over a load once, checks all that it writes, and tells what it cost."""
import json
import os
import select
import statistics
import subprocess
import sys
import time
from dataclasses import dataclass
from pathlib import Path

sys.path.append(str(Path(__file__).resolve().parent.parent / "tests"))

from loads import FIRST, numbered
from lsp import ANY_HEADER, EXIT, INITIALIZE, INITIALIZED, PATIENCE, SHUTDOWN, Difference, Program, frame

PIECE = 1 << 20


@dataclass
class Run:
    """Processor time, user and system, of all threads, and time by the clock, for a message; how long half of the requests, 99 of 100 and
    the last waited for their reply; and the time from the start to the reply to `initialize`: in microseconds. The memory after that
    reply, and the peak, in bytes."""

    processor: float
    clock: float
    half: float = 0
    most: float = 0
    worst: float = 0
    start: float = 0
    rest: int = 0
    peak: int = 0


def started(program, load, environment, source=subprocess.PIPE):
    words = [load.places if word == "PLACES" else word for word in program.commands[load.kind]]
    return Program(words, environment=os.environ | dict(program.environment) | environment, source=source)


def through(program, load, environment, path):
    """All of a file, into a pipe that is emptied at once."""
    with open(path, "rb") as source:
        begin = time.perf_counter()
        running = started(program, load, environment, source)
    pieces = []
    while piece := os.read(running.process.stdout.fileno(), PIECE):
        pieces.append(piece)
    seconds = time.perf_counter() - begin
    _, status, usage = os.wait4(running.process.pid, 0)
    running.process.returncode = os.waitstatus_to_exitcode(status)
    with running:
        if running.process.returncode or b"".join(pieces) != path.read_bytes():
            raise Difference(f"it ended with status {running.process.returncode}, or wrote something else than it read: {running.said()}")
    return Run((usage.ru_utime + usage.ru_stime) / load.count * 1e6, seconds / load.count * 1e6)


def write_file(path, load):
    path.write_bytes(b"".join([*(frame(load.message(FIRST + number)) for number in range(load.count)), frame(EXIT)]))


def exchange(client, frames, size, window):
    """Sends the frames, at most so many of them unanswered. It gives all that came, and how long each waited for its reply."""
    source, sink = client.source.fileno(), client.sink.fileno()
    sent, waited, pieces, count, rest = [], [], [], 0, b""
    while len(waited) < len(frames):
        if not rest and (free := frames[len(sent):len(waited) + window]):
            rest = memoryview(b"".join(free))
            sent += [time.perf_counter()] * len(free)
        if rest:
            try:
                rest = rest[os.write(sink, rest):]
            except BlockingIOError:
                pass
        readable, writable, _ = select.select([source], [sink] if rest else [], [], PATIENCE)
        if not readable and not writable:
            raise Difference(f"nothing moved within {PATIENCE:g} seconds")
        if not readable:
            continue
        pieces.append(os.read(source, PIECE))
        if not pieces[-1]:
            raise Difference(f"its output ended before the last reply, {client.last_words()}")
        count += len(pieces[-1])
        now = time.perf_counter()
        waited += [now - since for since in sent[len(waited):count // size]]
    return b"".join(pieces), waited


def check_model(program, load, body):
    """The first reply means what it has to mean."""
    came = json.loads(body)
    if program.copies:
        is_right = body == load.body
    elif load.wanted:
        is_right = came == load.wanted
    else:
        is_right = came["method"] == "textDocument/publishDiagnostics" and came["params"]["diagnostics"] == []
    if not is_right:
        raise Difference(f"the first reply is wrong: {body[:200]!r}")


def check_all(model, numbers, came):
    """The replies, of one length each, are those of the requests, in any order."""
    size = len(model)
    replies = sorted(came[at:at + size] for at in range(0, len(came), size))
    if replies != sorted(numbered(model, number) for number in numbers):
        raise Difference("a reply is not that of its request")


def processor_time(process):
    """User and system time of all threads so far, in seconds: the processor-time clock of a process, as clock_getcpuclockid(3) names it."""
    return time.clock_gettime(~process.pid << 3 | 2)


def conversation(program, load, environment, window):
    """A client that sends requests, and further ones as replies come."""
    began = time.perf_counter()
    with started(program, load, environment) as running, running.connect() as client:
        client.header = ANY_HEADER
        client.send_bytes(frame(INITIALIZE))
        client.body()
        return converse(client, program, load, window, time.perf_counter() - began)


def converse(client, program, load, window, start):
    client.send_bytes(frame(INITIALIZED))
    rest = client.program.memory("VmRSS")
    if load.opening:
        client.send_bytes(frame(load.opening))
        client.body()
    client.send_bytes(frame(load.message(FIRST)))
    head, body = client.frame()
    check_model(program, load, body)
    numbers = range(FIRST + 1, FIRST + 1 + load.count)
    frames = [frame(load.message(number)) for number in numbers]
    process = client.program.process
    spent, since = processor_time(process), time.perf_counter()
    came, waited = exchange(client, frames, len(head + body), window)
    clock, spent = time.perf_counter() - since, processor_time(process) - spent
    check_all(head + body, numbers, came)
    peak = client.program.memory("VmHWM")
    client.send_bytes(frame(SHUTDOWN))
    client.body()
    client.send_bytes(frame(EXIT))
    if client.program.status():
        raise Difference(f"it ended with status {process.returncode}: {client.program.said()}")
    waited.sort()
    half, most = statistics.median(waited), waited[len(waited) * 99 // 100]
    micros = [seconds * 1e6 for seconds in (spent / load.count, clock / load.count, half, most, waited[-1], start)]
    return Run(*micros, rest, peak)
