#!/usr/bin/env python3
"""Puts `example_recorder` between an editor, which starts this, and a server, and says whether it passed each message on and wrote it down.

    editors/through.py FILE PROGRAM [WORD ..]

What passes on the editor's side comes into FILE.ID.1.lsp (`tap.py`), and the recording into FILE.ID.log, with the id of this process. Ends in
status 1 if they differ: for each way, the messages have to be the same trees in the same order.
"""
import json
import os
import subprocess
import sys
from pathlib import Path

HERE = Path(__file__).resolve().parent
sys.dont_write_bytecode = True
sys.path.append(str(HERE.parent / "tests"))

from lsp import HOST, built, expect_soon, free_port, listens


def messages(name, mark):
    with open(name, encoding="utf-8", newline="\n") as file:
        return [json.loads(line[3:]) for line in file.read().split("\n") if line.startswith(mark)]


def main(file, command):
    file, port = f"{file}.{os.getpid()}", free_port()
    server = subprocess.Popen([*command, f"{HOST}:{port}"], stdin=subprocess.DEVNULL)
    try:
        expect_soon("whether the server listens", lambda: listens(port) or server.poll() is not None)
        between = built("example_recorder", "record", "-", f"{HOST}:{port}", f"{file}.log")
        status = subprocess.run([HERE / "tap.py", file, *between], check=False).returncode
    finally:
        server.kill()
        server.wait()
    same = all(messages(f"{file}.1.lsp", mark) == messages(f"{file}.log", mark) for mark in ["->", "<-"])
    sys.exit(status if same else 1)


main(sys.argv[1], sys.argv[2:])
