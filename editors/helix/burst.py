#!/usr/bin/env python3
"""Keys that come in a burst, as pasted into the terminal, have Helix 25.01 send changes whose versions are out of order. The server has to
say so, and behind a save its text has to be right: it lost the text, and takes that of the save, or the changes as they came gave the same.

    LSP_SERVER="program argument .." editors/helix/burst.py          at the top of the repository; see screen.py

Tells which it was. Ends in status 1 if nothing was said, or the server's text is another one behind the save.
"""
import sys
import time

sys.dont_write_bytecode = True

from screen import Helix

# A key of many parts. A hover at its last part shows all of them, and its box has at most 120 columns.
BURST, BURSTS = ".part1.two", 10

helix = Helix(["a = 1"], width=160)
try:
    helix.note("it starts", helix.shows("prices.toml") and helix.comes(lambda: helix.texts()))
    helix.keys("o")
    helix.type("all")
    for _ in range(BURSTS):
        helix.tmux("send-keys", "-l", BURST)
        time.sleep(0.3)
    helix.type(" = 1")
    helix.keys("Escape")
    time.sleep(1)
    helix.command("w!")
    helix.comes(lambda: any(message.get("method") == "textDocument/didSave" for _, message in helix.messages()))
    # A hover behind the save: the server answers it by the text that it holds.
    helix.keys("g", "l", "Space", "k")
    shown = helix.shows(f"all{BURST * BURSTS}: integer")
    messages = helix.messages()
    versions = [it["params"]["textDocument"]["version"] for _, it in messages if it.get("method") == "textDocument/didChange"]
    behind = sum(1 for one, two in zip(versions, versions[1:]) if two < one)
    told = [it["params"]["message"] for of_client, it in messages if it.get("method") == "window/logMessage"]
    print(f"{len(versions)} changes, {behind} behind a later one; told: {sorted(set(told))}")
    lost = any("out of order" in line for line in told)
    print(f"the text was {'lost, and comes whole' if lost else 'made of the changes as they came'}")
    helix.note("the server said so", not behind or lost or any("version" in line for line in told))
    # A server that did not lose the text keeps its own at a save, and says that it is another one.
    helix.note("its text is the file's behind the save", shown and not any("another one" in line for line in told))
finally:
    status = helix.leaves()
sys.exit(status)
