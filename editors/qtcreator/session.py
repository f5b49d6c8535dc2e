#!/usr/bin/env python3
"""Qt Creator holds a session. The server is added in the preferences, as a user does: the places of the mouse are those of Qt Creator 16."""
import sys
import time
from pathlib import Path

sys.dont_write_bytecode = True
sys.path.append(str(Path(__file__).resolve().parent.parent))

from gui import COMMAND, Gui

with Gui("qtcreator") as gui:
    creator = gui.start("qtcreator", str(gui.files[0]))
    gui.window("Qt Creator")
    time.sleep(5)
    gui.click(125, 118)
    gui.key("Up", "Return")
    gui.window("Preferences")
    time.sleep(2)
    gui.type("lang")
    gui.click(1031, 272)
    gui.key("Down", "Return")
    for x, y, text in [(850, 446, "toml"), (850, 502, "*.toml"), (820, 586, COMMAND[0]), (850, 614, " ".join(COMMAND[1:]))]:
        gui.click(x, y)
        gui.key("ctrl+a")
        gui.paste(text)
    gui.click(875, 663)
    time.sleep(4)
    gui.click(700, 400)
    gui.marks(2)
    gui.edits("ctrl+shift+z", ["ctrl+alt+Down", "ctrl+alt+Down", "a", "b", "BackSpace", "ctrl+z", "Escape", "ctrl+shift+Down", "ctrl+j"])
    gui.key("ctrl+k")
    gui.type(": pri")
    time.sleep(4)
    gui.key("Escape", "Escape")
    gui.key("ctrl+o")
    gui.window("Open File")
    gui.type(f"{gui.files[1]}\n")
    time.sleep(4)
    gui.click(700, 400)
    gui.edits_returns()
    gui.key("ctrl+w", "ctrl+q")
    gui.ends(creator, 0)
