#!/usr/bin/env python3
"""A client, `example_recorder` and a server, over TCP on 127.0.0.1 and through pipes: recordings and replays.

It compares each recording, each reply and each exit status. `lsp_check` judges the recordings of odd messages. It ends in status 1 at the
first difference. `.ci/run` calls it.
"""
import json
import socket
import subprocess
import sys
import tempfile
from contextlib import contextmanager
from pathlib import Path

sys.dont_write_bytecode = True

from lsp import (
    EXIT, HOST, INITIALIZE_REPLY, PATIENCE, SHUTDOWN, SHUTDOWN_REPLY, Client, Program, accepted, built, expect, expect_soon, frame,
    free_port, listens, run,
)

INITIALIZE = b'{"jsonrpc":"2.0","id":1,"method":"initialize"}'
INITIALIZED = b'{"jsonrpc":"2.0","method":"initialized"}'
ECHO = '{"jsonrpc":"2.0","id":5,"method":"demo/echo","params":["größe\\n"]}'.encode()
ECHOED = '{"jsonrpc":"2.0","id":5,"result":["größe\\n"]}'.encode()
# A client that waits for each reply: what it sends, and what comes back.
SESSION = [(INITIALIZE, INITIALIZE_REPLY), (INITIALIZED, None), (ECHO, ECHOED), (SHUTDOWN, SHUTDOWN_REPLY), (EXIT, None)]
LAST_WORDS = b'{"jsonrpc":"2.0","method":"bye"}'
# What the recorder tells of them: a server says nothing before the result of `initialize` (LSP 3.17, "Initialize Request").
TOO_EARLY = '1: <- `initialize` has no result yet (LSP 3.17, "Initialize Request")\n'

CHANGE = b'{"jsonrpc":"2.0","method":"textDocument/didChange","params":{"textDocument":{"uri":"file:///a"}}}'
NOT_OPEN = '4: -> the document is not open (LSP 3.17, "DidOpenTextDocument Notification")\n'


def lines_of(session):
    """The recording of a client that waits for each reply."""
    lines = []
    for sent, came in session:
        lines.append(b"-> " + sent)
        if came:
            lines.append(b"<- " + came)
    return b"".join(line + b"\n" for line in lines)


def framed(session):
    return [(frame(sent), came) for sent, came in session]


def server():
    """The server of `lsp_demo`, as soon as it listens."""
    started = Program(built("lsp_demo", "tcp"), listens=True)
    expect_soon("whether lsp_demo listens", lambda: listens(started.port) or not started.is_up())
    return started


def recorder(server_port, log):
    port = free_port()
    return Program(built("example_recorder", "record", f"{HOST}:{port}", f"{HOST}:{server_port}", log), port=port)


def piped_recorder(server_port, log):
    return Program(built("example_recorder", "record", "-", f"{HOST}:{server_port}", log))


def replay(log, port):
    return Program(built("example_recorder", "replay", log, f"{HOST}:{port}"))


def listening():
    """An end of a server's, and its port."""
    listener = socket.create_server((HOST, 0))
    return listener, listener.getsockname()[1]


def check_session(log, session=SESSION, told="", start=recorder):
    print("a session is recorded")
    with server() as demo, start(demo.port, log) as recording, recording.connect() as client:
        client.exchange(framed(session))
        if client.connection:
            client.connection.close()
        expect("the end of the recorder", client.end(), (0, b"", told))
        expect("the end of the server", demo.end(), (0, b"", ""))
    expect("the recording", log.read_bytes(), lines_of(session))


def check_document(log):
    print("a change of a document that is not open is told while the session goes on")
    check_session(log, [*SESSION[:2], (CHANGE, None), *SESSION[3:]], told=NOT_OPEN)


def check_pipes(log):
    print("through pipes too")
    check_session(log, start=piped_recorder)


def check_early_close(log):
    print("a client that closes first gets every reply")
    sent = [INITIALIZE, INITIALIZED, SHUTDOWN, EXIT]
    came = [INITIALIZE_REPLY, SHUTDOWN_REPLY]
    with server() as demo, recorder(demo.port, log) as recording, recording.connect() as client:
        client.send_bytes(b"".join(map(frame, sent)))
        client.close_input()
        expect("the replies", client.rest(), b"".join(map(frame, came)))
        status, printed, told = recording.end()
        expect("the end of the recorder, and what it tells of the server", (status, printed, "<-" in told), (0, b"", False))
        expect("the end of the server", demo.end(), (0, b"", ""))
    lines = log.read_bytes().splitlines()
    for mark, bodies in [(b"-> ", sent), (b"<- ", came)]:
        expect("the lines of one way", [it for it in lines if it.startswith(mark)], [mark + it for it in bodies])
    expect("the number of lines", len(lines), len(sent) + len(came))


def check_last_words(log):
    print("what a server says before it goes reaches the client, which learns that it is gone: over TCP, and at a pipe")
    for start in [recorder, piped_recorder]:
        listener, port = listening()
        with listener, start(port, log) as recording, recording.connect() as client:
            with accepted(listener) as theirs:
                theirs.sendall(frame(LAST_WORDS))
            if client.connection:
                client.close_input()
            expect("what came", client.rest(), frame(LAST_WORDS))
            expect("the end of the recorder", recording.end(), (0, b"", TOO_EARLY))
        expect("the recording", log.read_bytes(), b"<- " + LAST_WORDS + b"\n")


# Messages that no `Message` of `lsp_server` is, and content that is none at all: which way it goes, its bytes, the body of its line, and the
# rules that it breaks. The error that names no request breaks none (JSON-RPC 2.0, section 5).
ODD = [
    ("<-", NO_REQUEST := b'{"jsonrpc":"2.0","id":null,"error":{"code":-32700,"message":"no JSON"}}', NO_REQUEST, []),
    ("<-", NO_ID := b'{"jsonrpc":"2.0","id":null,"result":null}', NO_ID, ["BadId"]),
    ("->", FRACTION := b'{"jsonrpc":"2.0","id":1.5,"method":"a"}', FRACTION, ["BadId"]),
    ("->", HUGE := b'{"jsonrpc":"2.0","id":123456789012345678901234567890,"method":"a"}', HUGE, ["BadId"]),
    ("->", WIDE := b'{"jsonrpc":"2.0","id":4294967296,"method":"a"}', WIDE, ["WideId"]),
    ("->", b'{ "jsonrpc": "2.0",\r\n  "method": "a" }\n', b'{ "jsonrpc": "2.0",    "method": "a" } ', []),
    ("<-", CUT := b'{"jsonrpc":"2.0","method":', CUT, ["NotJson"]),
    # Its line would be JSON with a space for the line end.
    ("->", b'{"jsonrpc":"2.0","method":"a\nb"}', b'{"jsonrpc":"2.0","method":"a\x0bb"}', ["NotJson"]),
    ("<-", b"", b"\x0b", ["NotJson"]),
    ("<-", b" \r\n", b" \x0b\x0b\x0b", ["NotJson"]),
    ("->", NO_TEXT := b'{"jsonrpc":"2.0","method":"\xff"}', NO_TEXT, ["NotUtf8"]),
    ("->", LIST := b"[1]", LIST, ["Batch"]),
]
# A header that no program of ours writes.
ODD_HEADER = b"Content-Type: application/vscode-jsonrpc; charset=utf-8\r\ncontent-length: %d\r\n\r\n"
# What stands in a log, and on standard error, of each rule.
SAYS = {
    "BadId": '`id` is neither an integer nor a text (LSP 3.17, "Request Message")',
    "WideId": '`id` is no integer of 32 bits (LSP 3.17, "Request Message")',
    "NotJson": "the content is no JSON (JSON-RPC 2.0, sections 4 and 5)",
    "NotUtf8": 'the content is not UTF-8 (LSP 3.17, "Base Protocol")',
    "Batch": 'the content is a batch, which LSP does not have (LSP 3.17, "Base Protocol")',
}


@contextmanager
def both_ends(log, start=recorder):
    """A recorder between two ends of this program: the recorder, its client and its server."""
    listener, port = listening()
    with listener, start(port, log) as recording, recording.connect() as client, Client(recording, accepted(listener)) as theirs:
        yield recording, client, theirs


def judged(log):
    """What `lsp_check` finds in a recording: the lines, ways and rules of the breaches."""
    command = built("lsp_check", "--json", "--fail-on", "both", "--level", "implied", str(log))
    found = subprocess.run(command, capture_output=True, timeout=PATIENCE, check=False).stdout.decode().splitlines()
    return [(it["line"], it["way"], it["rule"]) for it in map(json.loads, found) if it["kind"] == "breach" and it["rule"] != "NoReply"]


def check_odd(log):
    print("messages of any shape pass unchanged, and so does content that is none; the log has them, and names what they break")
    begin = [("->", INITIALIZE, INITIALIZE, []), ("<-", INITIALIZE_REPLY, INITIALIZE_REPLY, []), ("->", INITIALIZED, INITIALIZED, [])]
    end = [("->", SHUTDOWN, SHUTDOWN, []), ("<-", SHUTDOWN_REPLY, SHUTDOWN_REPLY, []), ("->", EXIT, EXIT, [])]
    session = [*begin, *ODD, *end]
    broken = [(at, way, rule) for at, (way, _, _, rules) in enumerate(session, 1) for rule in rules]
    told = "".join(f"{at}: {way} {SAYS[rule]}\n" for at, way, rule in broken)
    for start in [recorder, piped_recorder]:
        with both_ends(log, start) as (recording, client, theirs):
            for way, content, _, _ in session:
                sender, receiver = (client, theirs) if way == "->" else (theirs, client)
                for piece in [ODD_HEADER % len(content), content[:9], content[9:]]:
                    sender.send_bytes(piece)
                    receiver.receive(piece)
            theirs.connection.close()
            if client.connection:
                client.connection.close()
            expect("the end of the recorder", recording.end(), (0, b"", told))
        expect("the recording", log.read_bytes(), b"".join(b"%s %s\n" % (way.encode(), body) for way, _, body, _ in session))
        expect("what lsp_check finds in it", judged(log), broken)
        with Program(built("example_recorder", "replay", log)) as replayed:
            sent = b"".join(frame(body) for way, _, body, _ in session if way == "->")
            expect("its frames", replayed.end(), (0, sent, ""))


def check_no_frame(log):
    print("bytes that are no frame pass too; the recording ends before them, and is not whole")
    for bytes_of_no_frame, why in [
        (b"\r\n\xff\x00 no frame" * 5000, "the header part of the frame is bad"),
        (b"Content-Type: " + b"x" * 300_000, "the header part of the frame is longer than 64 KiB"),
        (frame(SHUTDOWN)[:-1], "the bytes end in a frame"),
    ]:
        with both_ends(log) as (recording, client, theirs):
            client.send_bytes(frame(INITIALIZE) + bytes_of_no_frame)
            client.close_input()
            expect("what came", theirs.rest(), frame(INITIALIZE) + bytes_of_no_frame)
            theirs.send_bytes(frame(INITIALIZE_REPLY))
            theirs.close_input()
            expect("what came back", client.rest(), frame(INITIALIZE_REPLY))
            told = f"-> {why}: the rest is not recorded\nError: not all that passed is recorded\n"
            expect("the end of the recorder", recording.end(), (1, b"", told))
        expect("the recording", log.read_bytes(), lines_of([(INITIALIZE, INITIALIZE_REPLY)]))


def check_replay(log):
    print("a recording is compared, and another answer is told")
    log.write_bytes(lines_of(SESSION))
    with server() as demo, replay(log, demo.port) as replayed:
        expect("the replay", replayed.end(), (0, b"3 answers, each as recorded\n", ""))
        expect("the end of the server", demo.end(), (0, b"", ""))
    spaced = lines_of(SESSION).replace(INITIALIZE_REPLY, b'{ "result": {"capabilities": {}}, "id": 1, "jsonrpc": "2.0" }')
    log.write_bytes(spaced)
    with server() as demo, replay(log, demo.port) as replayed:
        expect("the replay of another layout", replayed.end(), (0, b"3 answers, each as recorded\n", ""))
        expect("the end of the server", demo.end(), (0, b"", ""))
    other = b'{"jsonrpc":"2.0","id":1,"result":{"capabilities":{"hoverProvider":true}}}'
    log.write_bytes(lines_of([(INITIALIZE, other)]))
    with server() as demo, replay(log, demo.port) as replayed:
        expect("the replay", replayed.end(), bad(other, INITIALIZE_REPLY))
        expect("the status of the server", demo.end()[0], 1)


def good(count):
    return 0, b"%d answers, each as recorded\n" % count, ""


def bad(wanted, found):
    return 1, b"recorded: %s\nfound: %s\n" % (wanted, found), "Error: not as recorded\n"


def check_replays(log, asked, recorded, cases):
    """What a replay says of a server that answers the requests of the recording in another way."""
    log.write_bytes(b"".join(line + b"\n" for line in [b"-> " + it for it in asked] + [b"<- " + it for it in recorded]))
    for said, wanted in cases:
        listener, port = listening()
        with listener, replay(log, port) as replayed, Client(replayed, accepted(listener)) as theirs:
            theirs.receive(b"".join(map(frame, asked)))
            theirs.send_bytes(b"".join(map(frame, said)))
            theirs.close_input()
            expect("the replay", replayed.end(), wanted)


# Two requests that take long, a notification of the server's own, and the replies in the order of the requests.
SLOW = [b'{"jsonrpc":"2.0","id":%d,"method":"demo/slow"}' % number for number in (1, 2)]
SLOW_REPLIES = [b'{"jsonrpc":"2.0","id":%d,"result":"%d"}' % (number, number) for number in (1, 2)]
NOTICES = [b'{"jsonrpc":"2.0","method":"first"}', b'{"jsonrpc":"2.0","method":"second"}']


def check_replay_in_another_order(log):
    print("replies may come in another order, and notifications may not")
    recorded = [SLOW_REPLIES[0], *NOTICES, SLOW_REPLIES[1]]
    check_replays(log, SLOW, recorded, [
        (recorded, good(4)),
        ([SLOW_REPLIES[1], *NOTICES, SLOW_REPLIES[0]], good(4)),
        ([*NOTICES, *SLOW_REPLIES], good(4)),
        ([*SLOW_REPLIES, *reversed(NOTICES)], bad(*NOTICES)),
    ])


def progress(token, value):
    params = {"token": token, "value": value}
    return b'{"jsonrpc":"2.0","method":"$/progress","params":%s}' % json.dumps(params, separators=(",", ":")).encode()


# Two long requests with tokens; the client cancels the second while it runs.
JOBS = [*SLOW, b'{"jsonrpc":"2.0","method":"$/cancelRequest","params":{"id":2}}']
BEGUN, FAR, DONE = (progress(1, {"kind": kind}) for kind in ["begin", "report", "end"])
PARTS = [progress("first", [1]), progress("first", [2]), progress("second", [3])]
CANCELED = b'{"jsonrpc":"2.0","id":2,"error":{"code":-32800,"message":"canceled by client"}}'
CANCELED_FIRST = CANCELED.replace(b'"id":2', b'"id":1')


def check_replay_of_jobs(log):
    print("what time decides in a session with jobs is not compared, and all else is")
    recorded = [BEGUN, FAR, PARTS[0], PARTS[2], PARTS[1], DONE, SLOW_REPLIES[0], CANCELED]
    check_replays(log, JOBS, recorded, [
        (recorded, good(5)),
        ([*PARTS, BEGUN, FAR, FAR, CANCELED, DONE, SLOW_REPLIES[0], FAR], good(5)),
        ([*PARTS, *SLOW_REPLIES], good(5)),
        ([PARTS[2], PARTS[1], PARTS[0], SLOW_REPLIES[0], CANCELED], bad(PARTS[0], PARTS[1])),
        ([PARTS[0], PARTS[2], SLOW_REPLIES[0], CANCELED], bad(PARTS[1], b"nothing")),
        ([*PARTS, SLOW_REPLIES[0], CANCELED, CANCELED], bad(b"nothing more", CANCELED)),
        ([*PARTS, CANCELED_FIRST, CANCELED], bad(SLOW_REPLIES[0], CANCELED_FIRST)),
    ])


def check_all():
    with tempfile.TemporaryDirectory() as folder:
        for check in [
            check_session, check_document, check_early_close, check_last_words, check_pipes, check_odd, check_no_frame, check_replay,
            check_replay_in_another_order, check_replay_of_jobs,
        ]:
            check(Path(folder) / "session.log")


if __name__ == "__main__":
    sys.exit(run(check_all))
