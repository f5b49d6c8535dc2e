#!/usr/bin/env python3
"""Kate holds a session: marks, outline, colours, completion, definition, formatting, edits, three carets, saves behind the last key, a file with
`\\r\\n`, symbols. It ends without a `shutdown` that has an id."""
import json
import sys
import time
from pathlib import Path

sys.dont_write_bytecode = True
sys.path.append(str(Path(__file__).resolve().parent.parent))

from gui import COMMAND, Gui

SERVER = {"command": COMMAND, "highlightingModeRegex": "^TOML$", "settings": {"toml": {"version": "1.1"}}}

with Gui("kate") as gui:
    gui.put(".config/kate/lspclient/settings.json", json.dumps({"servers": {"toml": SERVER}}))
    gui.put(".config/katerc", f"""[Kate Plugins]
lspclientplugin=true

[lspclient]
AllowedServerCommandLines={" ".join(COMMAND)}
SemanticHighlighting=true

[General]
Show welcome view for new window=false

[KTextEditor Document]
Newline at End of File=false
Remove Spaces=0
""")
    formatted = """[prices] # found
apple = 3
total = { apple = 3, }
pear = 1
[prices.more]
ripe = true
"""
    kate = gui.start("kate", "-n", str(gui.files[0]))
    gui.window("a.toml")
    time.sleep(4)
    gui.marks(1)
    gui.note("the outline and the colours", all(gui.replied(f"textDocument/{it}")[0] for it in ["documentSymbol", "semanticTokens/full"]))
    gui.key("ctrl+End")
    gui.type("[prices.more]\nripe = tr")
    gui.key("ctrl+space")
    time.sleep(2)
    gui.key("Return", "Up", "Home", "Right", "Right", "alt+l", "g")
    time.sleep(2)
    gui.key("End")
    gui.type(" # found")
    gui.key("Down", "Down", "Down", "Home", "shift+End")
    gui.type("pear   =   1")
    gui.marks(0)
    gui.key("ctrl+t", "f")
    time.sleep(2)
    gui.key("ctrl+s")
    time.sleep(1)
    gui.note("a value completed, a definition found, and the text formatted", gui.files[0].read_text() == formatted)
    gui.edits("ctrl+shift+z", ["ctrl+alt+Down", "ctrl+alt+Down", "a", "b", "BackSpace", "ctrl+z", "Escape", "ctrl+shift+Down", "ctrl+j"])
    gui.start("kate", str(gui.files[1]))
    gui.window("dos.toml")
    gui.edits_returns()
    gui.key("ctrl+alt+p")
    gui.type("prices")
    gui.key("Escape", "ctrl+w", "ctrl+q")
    gui.ends(kate, 1)
