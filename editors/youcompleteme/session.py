#!/usr/bin/env python3
"""Vim with YouCompleteMe holds a session on a terminal of its own: marks, edits, undos, saves, a file with `\\r\\n`."""
import fcntl
import json
import os
import pty
import struct
import sys
import termios
import threading
import time
from pathlib import Path

sys.dont_write_bytecode = True
sys.path.append(str(Path(__file__).resolve().parent.parent))

COMMAND, HOME = os.environ["LSP_SERVER"].split(), Path(os.environ["HOME"])
(HOME / "a.toml").write_text("[prices]\napple = 3\ntotal = { apple = 3, }\npear = nope\n")
(HOME / "dos.toml").write_bytes(b"x = 1\r\ny = nope\r\n")
(HOME / "vimrc").write_text(f"""set nocompatible hidden nobackup noswapfile encoding=utf-8 backspace=2 mouse=
filetype on
let g:ycm_language_server = [{{'name': 'toml', 'cmdline': {json.dumps(COMMAND)}, 'filetypes': ['toml'], 'project_root_files': []}}]
let g:ycm_confirm_extra_conf = 0
let g:ycm_server_python_interpreter = '/usr/bin/python3'
let g:ycm_always_populate_location_list = 1
let g:ycm_auto_hover = ''
packadd youcompleteme
""")
process, terminal = pty.fork()
if process == 0:
    os.chdir(HOME)
    os.environ["TERM"] = "xterm-256color"
    os.execvp("vim.nox", ["vim.nox", "-u", str(HOME / "vimrc"), "a.toml"])
fcntl.ioctl(terminal, termios.TIOCSWINSZ, struct.pack("HHHH", 40, 120, 0, 0))


def drain():
    try:
        while os.read(terminal, 65536):
            pass
    except OSError:
        pass


threading.Thread(target=drain, daemon=True).start()


def keys(text, pause=1.0, each=0.02):
    for letter in text:
        os.write(terminal, letter.encode())
        time.sleep(each)
    time.sleep(pause)


time.sleep(8)
keys("Goplum = 1\r\"emoji😀é\" = 5\rq = \"emoji😀é\"\x1b:w\r")
keys("gg0i😀é\x1b:w\r")
keys("uu:w\r")
keys("Go" + "\r".join(f"n{number} = {number}" for number in range(40)) + "\x1b:w\r", each=0.002)
keys("uuuuuuuu:w\r")
keys("\x12\x12\x12:w\r")
keys(":e dos.toml\r", 3)
keys("ggOz = 2\x1bGo\"é\" = 3\rw = nope\x1b:w\r")
# (the marks come some time after the text)
for _ in range(10):
    keys(":YcmForceCompileAndDiagnostics\r", 2)
    keys(":call writefile([len(getloclist(0))], 'marks')\r")
    if (HOME / "marks").read_text() == "2\n":
        break
keys(":bwipeout!\r\x1b:qa!\r")
_, status = os.waitpid(process, 0)
time.sleep(3)
marked = (HOME / "marks").read_text()
served = Path(f"{COMMAND[1]}.1.status").read_text()
if (status, marked, served) != (0, "2\n", "0\n"):
    sys.exit(f"Vim's status is {status}, the server's {served}, and it marks {marked}")
