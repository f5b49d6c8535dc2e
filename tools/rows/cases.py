"""The rows of crates/test_live: calls over a reader and a writer, on one thread and in threads, and what has to come of them.

What has to come of sessions, of reads and writes and of messages passed on is worked out in `rules.py`, of jobs in `jobs.py`, of connections
here, from the lifecycle of LSP 3.17, JSON-RPC 2.0, the faults that `ReadFault`, `WriteFault` and `SessionFault` document, and the documents of
`Connection`. Nothing comes from the program. `crates/test_live/src/main.rt` has the words of a row.
"""
import json
import re

from jobs import SCRIPT, job_answer, known, pool_answer
from listed import ABORTED, Boxes
from rules import (
    AT_END, GREATEST, STREAMS, Echo, Unwoken, answer, body_answer, escape, frame, framed, limit_in, pumped, relay_answers,
    seen, served, shown, text_of, waker_answers, written_by,
)
from tables import HERE, at, misspelt, table_of

# More turns, and more room, than any row of a connection takes.
TURNS = 99

# Connections.


def over_answer(call, device, count, data, waiting):
    """What the threads of a connection answer that sends each message back: the fault of the one that reads is told first."""
    data, _, breaks = seen(device, count, data)
    end, sent = pumped(data, breaks, limit_in(device, count))
    end = "fine" if end == "passed on" else end
    frames = [len(frame(it)) for it in sent]
    if call in ("dropped", "deaf", "stuck"):
        # A writer that could not end writes the one message that was sent, once the reader has ended.
        return f"channel closed; wrote {frames[0] if call == 'stuck' else 0} bytes"
    if call in ("joined", "left"):
        return f"{'channel closed' if call == 'left' and sent else end}; wrote 0 bytes"
    written, failed = sum(frames), False
    if device == "fills":
        written, failed = min(count, written), count < written
    # Only the first flush has a place that is known: how many frames a write has depends on the threads.
    if device == "flushes" and frames:
        written, failed = 0, True
    if failed and end == "fine":
        end = "write fault 1"
    return f"{end}; wrote {written} bytes" + (f", {waiting} waited" if call == "held" else "")


def passes_answer(call, data):
    """What a session comes to that passes over content parts which are no messages, and how many of each kind there were."""
    end, sent, counts = served(Echo() if call == "session" else Unwoken(), data, False, GREATEST, True)
    return f"{end}; wrote {shown(b''.join(map(frame, sent)))}; passed {' '.join(map(str, counts))}"


def called(boxes, name):
    """What a call of a connection's server says, which waits as long as its client is there."""
    if name.endswith("_while"):
        if name == "initialize_finish_while":
            boxes.send({"id": boxes.id, "result": None})
        return ABORTED
    if name == "initialize_start":
        return boxes.start(TURNS)
    if name == "initialize_finish":
        return boxes.finish(0)
    if name != "initialize":
        return boxes.shut(name, 2)
    began = boxes.start(TURNS)
    ended = boxes.finish(0, {"capabilities": {}}) if boxes.params else began
    return boxes.params if ended == "done" else ended


def boxes_of(texts):
    """The boxes of a connection whose client sent these messages, or is gone."""
    boxes = Boxes("y" * TURNS, TURNS, "" if texts == "gone" else texts)
    boxes.id = 234
    return boxes


def call_answer(rest):
    name, _, texts = rest.partition(" | ")
    boxes = boxes_of(texts)
    said = called(boxes, name)
    said += ", disconnected" * (said in AT_END.values())
    left, got = len(boxes.events), "".join(map(text_of, boxes.sent))
    return [said if texts == "gone" else f"{said}; left {left}; got {got}"]


def turns_answer(_):
    """The client waits for three turns, gets one reply to `initialize`, and one to `shutdown`."""
    boxes = boxes_of('{"id":1,"method":"initialize","params":{"a":1}}; {"method":"initialized"}')
    params = called(boxes, "initialize")
    boxes.events = [{"method": "exit"}]
    return [f"{params}; shutdown {called(boxes, 'shutdown')}; got {''.join(map(text_of, boxes.sent))}"]


# What a fault means, by its kind and its number. The kinds `connection reset`, `broken pipe` and `address in use` are those that Rust's
# `ErrorKind` prints.
MEANINGS = {
    ("read", "1"): "the read failed: connection reset",
    ("read", "2"): "a header line is not UTF-8",
    ("read", "3"): r"a header line does not end in \r\n",
    ("read", "4"): "a header line has no `: `",
    ("read", "5"): "the value of `Content-Length` is no number",
    ("read", "6"): "the header part has no `Content-Length`",
    ("read", "7"): "the input ended inside a content part",
    ("read", "8"): "the content part is not UTF-8",
    ("read", "9"): "the content part is not JSON that can be read; is `Content-Length` too small?",
    ("read", "10"): "the content part is JSON, but no message",
    ("read", "11"): "out of memory",
    ("read", "12"): "the content part is above the limit",
    ("read", "13"): "the content part is a batch: LSP has none",
    ("read", "14"): "the header part is above the limit",
    ("write", "1"): "the write failed: broken pipe",
    ("write", "2"): "out of memory",
}
OTHERS = {
    ("session", "4"): "out of memory",
    ("pump", "3"): "thread not started",
    ("io", "3"): "channel closed: the receiver of messages was dropped",
    ("io", "4"): "thread not started",
    ("io", "5"): "socket fault: address in use",
    ("io", "6"): "out of memory",
}


def explained_answer(kind, number):
    """What a fault prints for a person. One of reading or writing prints the same as the fault of a session, a pump and a connection."""
    if (kind, number) in OTHERS:
        return OTHERS[kind, number]
    return "; ".join([f"{kind} fault {number}: {MEANINGS[kind, number]}"] * 4)


ROWS = {
    "body": lambda rest: [body_answer(unescape(rest))],
    "relay": relay_answers,
    "waker": waker_answers,
    "pool": pool_answer,
    "call": call_answer,
    "turns": turns_answer,
    "called_off": lambda _: [f"{ABORTED}, asked 2 times, after a second true"],
    "nobody": lambda _: ["Socket(ConnectionRefused), socket fault, socket fault: connection refused"],
    "explained": lambda rest: [explained_answer(*rest.split())],
    "exit": lambda _: [f"timed out waiting for exit notification, after 30 seconds true; got {text_of({'id': 2, 'result': None})}"],
}


# Cases.


def unescape(text):
    first, *parts = text.encode().split(b"\\")
    data, known = first, {b"r": b"\r", b"n": b"\n"}
    for it in parts:
        data += known[it[:1]] + it[1:] if it[:1] in known else bytes([int(it[1:3], 16)]) + it[3:]
    return data


# The calls of cases, and the devices that they are made over.
CALLS = "session speaks front read inbox loop write frames outbox line tolerant pump burst over joined left held dropped deaf stuck jobs many".split()
DEVICES = (
    "whole bounds limits fills flushes headers passes ends breaks huge waits looks late slow gated no_reader no_writer".split()
)


def case_answers(words, data, pauses):
    """A case, whose answer is printed where it is another than at the place before. It is the same in each of the ways in which the call is made."""
    call, how, steps, device, start, end, *more = words
    if device not in DEVICES:
        misspelt(f"no device is called `{device}`")
    shown_at_once = {int(it) >= len(data) for it in steps.split(",")}
    if call in ("pump", "burst") and device == "flushes" and len(shown_at_once) > 1:
        misspelt("the flushes of these sizes of pieces are not the same")
    kind, last = [it for it in more if not it.isdigit()], None
    for count in range(int(start), int(end) + 1):
        if call in ("jobs", "many"):
            came = job_answer([*words[:4], count], data, pauses)
        elif call in ("over", "joined", "left", "held", "dropped", "deaf", "stuck"):
            came = over_answer(call, device, count, data, *more or [0])
        elif device == "passes":
            came = passes_answer(call, data)
        else:
            came = answer(call, device, count, data, shown_at_once == {True}, *kind)
        if came != last:
            yield f"{count}: {came}"
        last = came


# The table `sessions`, whose head explains its lines.


SIGNALS = ("messages", "begun", "ended", "written", "taken", "writes", "requests")
CONTENT = {
    "bytes": unescape,
    "body": lambda text: framed(unescape(text)),
    "text": lambda text: framed(text.encode()),
    "recorded": lambda _: b"".join(map(framed, (HERE / "recorded").read_bytes().splitlines())),
}


def bytes_of(parts, names):
    return b"".join(part(it, names) for it in parts.split("; ") if it)


def part(text, names):
    """The bytes of a part of a text: a name, what is no message, or a message. The script of a job has to have known words."""
    word, _, rest = text.partition(" ")
    if word in names:
        return bytes_of(names[word].replace("%", rest), names)
    if word == "each":
        first, last, each = rest.split(" ", 2)
        return b"".join(part(each.replace("%", str(it)), names) for it in range(int(first), int(last) + 1))
    rest, text = (re.sub(r"<(\S+?)\*(\d+)>", lambda it: it[1] * int(it[2]), it) for it in (rest, text))
    if word in CONTENT:
        return CONTENT[word](rest)
    message = json.loads(text)
    kind, _, script = message.get("method", "").partition(" ")
    if kind in ("job", "later"):
        known(script.split(", "), SCRIPT)
    return frame(message)


def waits(text, data):
    """The pauses after these bytes. The name of a call stands for how many bytes it writes for them."""
    for it in known(text.split(", "), SIGNALS):
        signal, count = it.split(" ")
        yield f"{len(data)}:{signal}:{written_by(count, data) if count in STREAMS else int(count)}"


def case(line, data):
    """A row of a case on these bytes, with its numbers."""
    call = line.partition(" ")[0]
    numbers = {"length": len(data), "written": written_by(call if call in STREAMS else "pump", data) if "written" in line else 0}
    return " ".join(str(numbers.get(it, it)) for it in line.split(" "))


def table():
    """The rows of the program, each with its place in a table."""
    names, data, pauses = {}, b"", []
    for place, line in table_of("sessions"):
        word, _, rest = line.partition(" ")
        with at(place):
            if pauses and word:
                yield place, "pauses " + " ".join(pauses)
                pauses = []
            if line.startswith("  wait "):
                pauses += waits(line[7:], data)
            elif not word:
                found = re.fullmatch(r"  (?:(\d+) times )?(.*)", line)
                count, more = int(found[1] or 1), bytes_of(found[2], names)
                yield place, f"+ {count} {escape(more)}"
                data += count * more
            elif word == "=":
                data = bytes_of(rest, names)
                yield place, f"= {escape(data)}"
            elif word == "let":
                name, _, names[name] = rest.partition(" ")
            elif word == "from":
                yield from table_of(rest)
            else:
                yield place, case(line, data) if word in CALLS else line
