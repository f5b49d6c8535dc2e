#!/usr/bin/env python3
"""Helix starts `example_toml` in a text, and shows its marks, hovers, keys, outline and completions; goes to a definition and formats. Then it edits
the text with one caret and with many, reads it again, and starts the server again. Behind each of these the text of the server has to be the file's.

    LSP_SERVER="program argument .." editors/helix/session.py        at the top of the repository; see screen.py

Ends in status 1 if something did not come.
"""
import sys

sys.dont_write_bytecode = True

from screen import Helix

helix = Helix(["[prices]", "apple   = 3  ", "\"größe\" = { apple = 30, }", "\"𝒙\" = pear", "# 👨‍👩‍👧 e\u0301", "[prices.more]", "plum = true"])
try:
    helix.note("it starts", helix.shows("prices.toml"))
    helix.note("one mark, since the settings allow the other", helix.shows("● 1") and helix.comes(lambda: len(helix.marks()) == 1))
    helix.keys("g", "g", "j", "j", "j", "g", "l")
    helix.note("the mark's text is shown on its line", helix.shows(helix.marks()[0]["message"][:12]))
    helix.keys("k", "g", "l", "h", "h", "h", "Space", "k")
    helix.note("a hover tells the full key and its type", helix.shows('prices."größe".apple: integer'))
    helix.keys("Escape", "Space", "S")
    helix.type("größe")
    helix.note("a key is found in all texts", helix.shows('prices."größe".apple'))
    helix.keys("Escape", "Escape", "Space", "s")
    helix.type("plum")
    helix.note("the outline has a key", helix.shows("1/7") and helix.shows("> "))
    helix.keys("Enter", "k", "g", "h", "l", "g", "d")
    helix.note("the definition of a table is its header", helix.shows("1 sel  1:1"))
    helix.keys("j", "j", "j", "x", "d")
    helix.note("a text that is right has no mark", helix.comes(lambda: not helix.marks()))
    helix.command("format")
    helix.note("the text is formatted", helix.is_written() and helix.path.read_text().split("\n")[1] == "apple = 3")
    helix.keys("g", "e", "o")
    helix.type("ripe = fa")
    helix.keys("C-x")
    helix.note("a value is completed", helix.shows("false"))
    helix.keys("C-n", "Enter", "Escape")
    helix.note("its text after a completion", helix.is_written() and "ripe = false\n" in helix.path.read_text())

    helix.keys("g", "g", "j", "A")
    helix.type(" + 𝒙😀 größe")
    helix.keys("Escape", "o")
    helix.type("neu = 4")
    helix.keys("Escape", "u", "u", "U", "g", "e", "o")
    helix.type("# e\u0301👨‍👩‍👧")
    helix.keys("Escape", "x", "d", "g", "g", "x", "d", "u")
    helix.note("its text after edits and undos", helix.is_written())
    helix.keys("%", "s")
    helix.type("e")
    helix.keys("Enter", "c")
    helix.type("ë😀")
    helix.keys("Escape", ",")
    helix.note("its text after edits with a caret at each `e`", helix.is_written())

    helix.path.write_bytes("# another\r\nö = 1\r\n".encode())
    helix.command("reload")
    helix.keys("g", "g", "j", "A")
    helix.type(" + 2")
    helix.keys("Escape")
    helix.note("its text after `:reload`, with `\\r\\n`, and an edit", helix.is_written())
    helix.command("lsp-restart")
    helix.note("`:lsp-restart` starts another", helix.comes(lambda: helix.texts(2)))
    helix.keys("A")
    helix.type(" + 5")
    helix.keys("Escape")
    helix.note("its text after an edit", helix.is_written(2))
finally:
    status = helix.leaves()
sys.exit(status)
