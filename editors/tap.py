#!/usr/bin/env python3
"""Passes all bytes between a client and a server on, and writes each message into a file, in the form of `example_recorder`.

    editors/tap.py FILE PROGRAM [WORD ..]

The file is FILE.1.lsp, for the next call FILE.2.lsp, and so on. FILE.1.status gets the program's status, unless this is killed.
"""
import json
import os
import subprocess
import sys
import threading
from pathlib import Path

sys.dont_write_bytecode = True
sys.path.append(str(Path(__file__).resolve().parent.parent / "tests"))

from lsp import ANY_HEADER, COMPACT, take_frame


class Recording:
    def __init__(self, name):
        self.file = open(name, "w", encoding="utf-8", newline="\n")
        self.lock = threading.Lock()

    def copy(self, source, sink, mark):
        """Passes bytes on up to their end. A message is written down before its last byte is passed on."""
        held = bytearray()
        try:
            while piece := os.read(source, 65536):
                held += piece
                self.note(held, mark)
                view = memoryview(piece)
                while view:
                    view = view[os.write(sink, view) :]
        except OSError:
            pass

    def note(self, held, mark):
        """Writes the messages that the bytes begin with, and takes them away. What is no frame stands in a line that nobody can read."""
        while taken := take_frame(held, ANY_HEADER):
            self.write(f"{mark} {json.dumps(json.loads(taken[1]), **COMPACT)}\n")
        if b"\r\n\r\n" in held and not ANY_HEADER.match(held):
            self.write(f"{mark} no frame: {bytes(held)!r}\n")
            held.clear()

    def write(self, line):
        with self.lock:
            self.file.write(line)
            self.file.flush()


def main(file, command):
    number = 1
    while os.path.exists(f"{file}.{number}.lsp"):
        number += 1
    recording = Recording(f"{file}.{number}.lsp")
    program = subprocess.Popen(command, stdin=subprocess.PIPE, stdout=subprocess.PIPE)

    def from_client():
        recording.copy(0, program.stdin.fileno(), "->")
        program.stdin.close()

    threading.Thread(target=from_client, daemon=True).start()
    recording.copy(program.stdout.fileno(), 1, "<-")
    os.close(1)
    status = program.wait()
    with open(f"{file}.{number}.status", "w", encoding="utf-8") as end:
        end.write(f"{status}\n")
    os._exit(status if status >= 0 else 1)


main(sys.argv[1], sys.argv[2:])
