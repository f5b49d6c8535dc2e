#!/usr/bin/env python3
"""Spyder holds a session with a server at a port, for Python files. Each change is the whole text, and an undo takes the version back."""
import re
import socket
import subprocess
import sys
import threading
import time
from pathlib import Path

sys.dont_write_bytecode = True
sys.path.append(str(Path(__file__).resolve().parent.parent))

from gui import COMMAND, HOME, Gui

PORT = 2087


def serve(connection):
    """Starts the server for a client, once it sends something. Spyder first looks whether somebody listens, and sends nothing then."""
    if connection.recv(1, socket.MSG_PEEK):
        subprocess.run(COMMAND, stdin=connection, stdout=connection, check=False)
    connection.close()


def accept(listener):
    while True:
        threading.Thread(target=serve, args=[listener.accept()[0]], daemon=True).start()


listener = socket.create_server(("127.0.0.1", PORT))
threading.Thread(target=accept, args=[listener], daemon=True).start()
with Gui("spyder", "py") as gui:
    gui.environment.update(QTWEBENGINE_DISABLE_SANDBOX="1", QTWEBENGINE_CHROMIUM_FLAGS="--no-sandbox")
    # The first start writes the settings.
    first = gui.start("spyder", "--new-instance", str(gui.files[0]))
    time.sleep(40)
    first.terminate()
    first.wait()
    for file in HOME.glob(".config/spyder-py3*/**/*.ini"):
        file.write_text(re.sub(r"('advanced/(?:external|enabled)': )False", r"\1True", file.read_text()))
    spyder = gui.start("spyder", "--new-instance", str(gui.files[0]))
    time.sleep(40)
    gui.click(400, 500)
    gui.marks(2)
    gui.edits("ctrl+shift+z")
    gui.key("ctrl+w", "ctrl+q")
    time.sleep(10)
    # (it may still ask something)
    spyder.terminate()
    gui.ends(spyder, 1)
