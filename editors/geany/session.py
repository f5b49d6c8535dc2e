#!/usr/bin/env python3
"""Geany's plugin LSP Client holds a session: edits, a file whose `\\r\\n` it keeps, lines moved and doubled."""
import sys
import time
from pathlib import Path

sys.dont_write_bytecode = True
sys.path.append(str(Path(__file__).resolve().parent.parent))

from gui import COMMAND, Gui

with Gui("geany") as gui:
    gui.put(".config/geany/filetype_extensions.conf", "[Extensions]\nConf=*.toml;*.conf;\n")
    (plugin,) = Path("/usr/lib").glob("*/geany/lsp.so")
    gui.put(".config/geany/geany.conf", f"""[geany]
pref_main_load_session=false
strip_trailing_spaces=false
pref_editor_ensure_convert_line_endings=false
pref_editor_new_line=false
[plugins]
load_plugins=true
active_plugins={plugin};
""")
    gui.put(".config/geany/plugins/lsp/lsp.conf", f"""[all]
enable_by_default=true
use_without_project=true
use_outside_project_dir=true
send_did_change_configuration=true
[Conf]
cmd={" ".join(COMMAND)}
initialization_options={{"toml":{{"version":"1.1"}}}}
lang_id_mappings=toml;*.toml
""")
    geany = gui.start("geany", "-i", str(gui.files[1]), str(gui.files[0]))
    gui.window("a.toml")
    time.sleep(4)
    gui.key("F2")
    gui.marks(1)
    gui.edits("ctrl+y", ["alt+shift+Down", "a", "b", "BackSpace", "ctrl+z", "Escape", "alt+Next", "ctrl+d", "ctrl+k"])
    gui.key("ctrl+Prior")
    gui.edits_returns()
    gui.key("ctrl+w", "ctrl+q")
    gui.ends(geany, 0)
