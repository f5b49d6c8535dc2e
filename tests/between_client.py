#!/usr/bin/env python3
"""Clients and servers with `lsp_check between` between them, over TCP on 127.0.0.1: what passes, and what is told.

It ends in status 1 at the first difference. `.ci/run` calls it.
"""
import json
import sys
import time
from contextlib import contextmanager

sys.dont_write_bytecode = True

import lsp
from lsp import (
    EXIT, HOST, INITIALIZE_REPLY, PATIENCE, SHUTDOWN, SHUTDOWN_REPLY, Client, Program, accepted, built, expect, frame, free_port,
    read_piece, run,
)
from recorder_client import CHANGE, INITIALIZE, INITIALIZED, SESSION, framed, listening, server

NO_REPLY = "the session is over, and the request has no reply (JSON-RPC 2.0, section 5)"
NOT_OPEN = 'the document is not open (LSP 3.17, "DidOpenTextDocument Notification")'
# Frames that no program of ours writes: another order of the header, spaces, a body with a line's end.
ODD_BODY = b'{ "id" : 1 ,\n "method" : "initialize", "jsonrpc":"2.0" }'
ODD = b"Content-Type: application/vscode-jsonrpc; charset=utf-8\r\ncontent-length: %d\r\n\r\n%s" % (len(ODD_BODY), ODD_BODY)
PADDED = b"Content-Length: 0000%d\r\n\r\n%s" % (len(INITIALIZE_REPLY), INITIALIZE_REPLY)
NO_FRAME = b"\r\n\xff\x00 no frame" * 5000
LONG_HEADER = b"Content-Type: " + b"x" * 300_000


def between(server_port, *words):
    port = free_port()
    return Program(built("lsp_check", "between", *words, f"{HOST}:{port}", f"{HOST}:{server_port}"), port=port)


def summary(requests, replies, breaches, is_open=0):
    return f"client, server: requests {requests}, replies {replies}, open {is_open}, breaches {breaches}, failing {breaches}\n"


def line_of(check):
    """The next line that it prints."""
    line, deadline = b"", time.monotonic() + PATIENCE
    while not line.endswith(b"\n") and (piece := read_piece(check.process.stdout, deadline, "a line")):
        line += piece
    return line


@contextmanager
def both_ends(*words):
    """A check between two ends of this program: the check, its client and its server."""
    listener, port = listening()
    with listener, between(port, *words) as check, check.connect() as client, Client(check, accepted(listener)) as theirs:
        yield check, client, theirs


def check_session():
    print("a session passes, and breaks no rule")
    with server() as demo, between(demo.port, "--once") as check, check.connect() as client:
        client.exchange(framed(SESSION))
        expect("what follows", client.rest(), b"")
        client.connection.close()
        expect("the end of the check", check.end(), (0, b"", summary(3, 3, 0)))
        expect("the end of the server", demo.end(), (0, b"", ""))


def check_bytes():
    print("odd frames pass unchanged, in pieces too, and so do bytes that are no frame")
    with both_ends("--once") as (check, client, theirs):
        for piece in [ODD[:7], ODD[7:80], ODD[80:-1], ODD[-1:]]:
            client.send_bytes(piece)
            theirs.receive(piece)
        theirs.send_bytes(PADDED)
        client.receive(PADDED)
        for one, other, bytes_of_no_frame in [(client, theirs, NO_FRAME), (theirs, client, NO_FRAME[::-1])]:
            one.send_bytes(bytes_of_no_frame)
            one.close_input()
            expect("what came after the frame", other.rest(), bytes_of_no_frame)
        told = f"client:{len(ODD)}: the header part of the frame is bad\n"
        expect("the end of the check", check.end(), (3, b"", told + summary(1, 1, 0)))


def check_long_header():
    print("a header part without an end passes, and is told once")
    with both_ends("--once") as (check, client, theirs):
        client.send_bytes(LONG_HEADER)
        client.close_input()
        expect("what came", theirs.rest(), LONG_HEADER)
        theirs.connection.close()
        told = "client:0: the header part of the frame is longer than 64 KiB\n"
        expect("the end of the check", check.end(), (2, b"", told + summary(0, 0, 0)))


def check_told_at_once():
    print("a breach is told while the session goes on, as text and as JSON")
    place = len(frame(INITIALIZE)) + len(frame(INITIALIZED))
    line = f"client:{place}: -> textDocument/didChange file:///a: {NOT_OPEN}"
    told = {"kind": "breach", "file": "client", "byte": place, "way": "->", "rule": "NotOpen", "method": "textDocument/didChange"}
    told |= {"level": "must", "side": "client", "fails": True}
    for words in ["--once", "--fail-on", "both"], ["--once", "--fail-on", "client", "--json"]:
        with server() as demo, between(demo.port, *words) as check, check.connect() as client:
            client.exchange([(frame(INITIALIZE), INITIALIZE_REPLY), (frame(INITIALIZED) + frame(CHANGE), None)])
            if "--json" in words:
                expect("the breach", json.loads(line_of(check)), {**told, "text": NOT_OPEN, "uri": "file:///a"})
            else:
                expect("the breach", check.says("the breach"), line)
            client.exchange([(frame(SHUTDOWN) + frame(EXIT), SHUTDOWN_REPLY)])
            client.connection.close()
            expect("the status", check.end()[0], 1)
            demo.end()


def check_capabilities():
    print("what both sides announced is judged, if that is chosen")
    ask = b'{"jsonrpc":"2.0","id":1,"method":"workspace/configuration","params":{"items":[]}}'
    place = len(frame(INITIALIZE_REPLY))
    for words, status in [([], 0), (["--rules", "capabilities"], 0), (["--rules", "capabilities", "--level", "implied"], 1)]:
        with both_ends("--once", "--json", *words) as (check, client, theirs):
            for one, other, message in [(client, theirs, INITIALIZE), (theirs, client, INITIALIZE_REPLY), (client, theirs, INITIALIZED), (theirs, client, ask),
                                        (client, theirs, b'{"jsonrpc":"2.0","id":1,"result":[]}')]:
                one.send_bytes(frame(message))
                other.receive(frame(message))
            client.connection.close()
            theirs.connection.close()
            ended, out, errors = check.end()
            found = [(it["rule"], it["file"], it["byte"]) for it in map(json.loads, out.splitlines()) if it["kind"] == "breach"]
            expect(f"the status, and what is found by {words}", (ended, found), (status, [("ClientCannot", "server", place)] if words else []))


def check_types():
    print("types are judged, if that is chosen")
    ask = b'{"jsonrpc":"2.0","id":7,"method":"textDocument/hover","params":{"textDocument":{"uri":"file:///a"},"position":{"line":0,"character":0}}}'
    reply = b'{"jsonrpc":"2.0","id":7,"result":{"range":null}}'
    for words, status in [([], 0), (["--rules", "types"], 1), (["--rules", "types", "--fail-on", "client"], 0)]:
        with both_ends("--once", "--json", *words) as (check, client, theirs):
            passes = [(client, theirs, lsp.INITIALIZE), (theirs, client, INITIALIZE_REPLY), (client, theirs, INITIALIZED), (client, theirs, ask), (theirs, client, reply)]
            for one, other, message in passes:
                one.send_bytes(frame(message))
                other.receive(frame(message))
            client.connection.close()
            theirs.connection.close()
            ended, out, errors = check.end()
            found = [(it["rule"], it["file"], it["byte"]) for it in map(json.loads, out.splitlines()) if it["kind"] == "breach"]
            wanted = [("WrongType", "server", len(frame(INITIALIZE_REPLY)))] if words else []
            expect(f"the status, and what is found by {words}", (ended, found), (status, wanted))


def check_order():
    print("a reply is judged behind its request, though both pass at once")
    with both_ends("--once") as (check, client, theirs):
        begin = [(frame(INITIALIZE), frame(INITIALIZE_REPLY)), (frame(INITIALIZED), b"")]
        for sent, came in begin + [tuple(frame(it % key) for it in ECHO) for key in range(500)]:
            client.send_bytes(sent)
            theirs.receive(sent)
            theirs.send_bytes(came)
            client.receive(came)
        client.connection.close()
        theirs.connection.close()
        expect("the end of the check", check.end(), (0, b"", summary(501, 501, 0)))


ECHO = b'{"jsonrpc":"2.0","id":%d,"method":"a"}', b'{"jsonrpc":"2.0","id":%d,"result":null}'


def check_clients():
    print("a server that goes is told by a close, and the next client is served")
    listener, port = listening()
    with listener, between(port) as check:
        for _ in range(20):
            with check.connect() as client:
                with Client(check, accepted(listener)) as theirs:
                    client.send_bytes(frame(INITIALIZE))
                    theirs.receive(frame(INITIALIZE))
                expect("what a client reads whose server is gone", client.rest(), b"")
                # (though it stays)
                expect("what is told", check.says("an open request"), f"client:0: -> initialize 1: {NO_REPLY}")
                expect("the summary", check.says("the session") + "\n", summary(1, 0, 1, 1))
        expect("whether it listens on", check.is_up(), True)


def check_no_server():
    print("a server that can't be reached is named, and is no success")
    port = free_port()
    with between(port, "--once") as check, check.connect() as client:
        expect("what the client reads", client.rest(), b"")
        status, out, errors = check.end()
        expect("the end of the check", (status, out), (2, b""))
        expect("whether the address is named", f"no connection to the server at {HOST}:{port}: " in errors, True)


def check_null_id():
    print("an error that names no request breaks no rule, and the session goes on")
    with both_ends("--once") as (check, client, theirs):
        for sent, came in [(frame(INITIALIZE), frame(NO_REQUEST)), (frame(INITIALIZED), frame(INITIALIZE_REPLY))]:
            client.send_bytes(sent)
            theirs.receive(sent)
            theirs.send_bytes(came)
            client.receive(came)
        client.connection.close()
        theirs.connection.close()
        expect("whether a rule is broken by the server", check.end()[0], 0)


NO_REQUEST = b'{"jsonrpc":"2.0","id":null,"error":{"code":-32700,"message":"no JSON"}}'


def in_a_minute(check):
    begun = time.monotonic()
    check()
    expect("whether it took less than a minute", time.monotonic() - begun < 60, True)


def check_all():
    for check in [
        check_session, check_bytes, check_long_header, check_told_at_once, check_capabilities, check_types, check_order, check_clients, check_no_server,
        check_null_id,
    ]:
        in_a_minute(check)


if __name__ == "__main__":
    sys.exit(run(check_all))
