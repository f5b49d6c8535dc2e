"""A screen of its own (Xvfb, openbox, D-Bus) with one editor in it, keys by xdotool, and what every editor's session does.

The folder of the session is HOME. `LSP_SERVER` has the command of the server, with `tap.py` before it (`editors/run`).
"""
import json
import os
import subprocess
import sys
import time
from pathlib import Path

sys.dont_write_bytecode = True
sys.path.append(str(Path(__file__).resolve().parent.parent / "tests"))

TEXT = "[prices]\napple = 3\ntotal = { apple = 3, }\npear = nope\n"
RETURNS = "x = 1\r\ny = nope\r\n"
COMMAND = os.environ["LSP_SERVER"].split()
HOME = Path(os.environ["HOME"])
# Without openbox' own keys: Ctrl+Alt+Down is one more caret in Kate and Qt Creator.
WINDOWS = '<?xml version="1.0"?><openbox_config xmlns="http://openbox.org/3.4/rc"><focus><focusNew>yes</focusNew></focus></openbox_config>'
SCREENS = {"kate": 61, "qtcreator": 62, "geany": 64, "spyder": 67}


class Gui:
    """A screen, and the processes on it. They end with it."""

    def __init__(self, editor, ending="toml"):
        self.files = [HOME / f"a.{ending}", HOME / f"dos.{ending}"]
        for file, text in zip(self.files, [TEXT, RETURNS]):
            file.write_bytes(text.encode())
        display = f":{SCREENS[editor]}"
        (HOME / "run").mkdir(mode=0o700, exist_ok=True)
        self.environment = {
            **os.environ, "DISPLAY": display, "XDG_RUNTIME_DIR": str(HOME / "run"), "QT_QPA_PLATFORM": "xcb", "NO_AT_BRIDGE": "1",
            "XDG_CONFIG_HOME": str(HOME / ".config"), "XDG_DATA_HOME": str(HOME / ".local/share"),
        }
        self.processes = []
        self.start("Xvfb", display, "-screen", "0", "1400x900x24", "-nolisten", "tcp")
        time.sleep(1)
        said = subprocess.run(["dbus-launch"], env=self.environment, capture_output=True, text=True, check=True).stdout
        self.environment.update(line.split("=", 1) for line in said.splitlines())
        self.put(".config/openbox/rc.xml", WINDOWS)
        self.start("openbox", "--config-file", str(HOME / ".config/openbox/rc.xml"))
        time.sleep(1)

    def __enter__(self):
        return self

    def __exit__(self, *_):
        for process in reversed(self.processes):
            if process.poll() is None:
                process.terminate()
        os.kill(int(self.environment["DBUS_SESSION_BUS_PID"]), 15)

    def start(self, *command):
        process = subprocess.Popen(command, env=self.environment, stdin=subprocess.DEVNULL, cwd=HOME)
        self.processes.append(process)
        return process

    def put(self, name, text):
        """Writes a file below the home."""
        (HOME / name).parent.mkdir(parents=True, exist_ok=True)
        (HOME / name).write_text(text)

    def tool(self, *words):
        return subprocess.run(["xdotool", *words], env=self.environment, capture_output=True, text=True, check=False).stdout.strip()

    def window(self, name, seconds=60):
        """Waits for a window of this name, and brings it to the front."""
        end = time.monotonic() + seconds
        while time.monotonic() < end:
            if found := self.tool("search", "--onlyvisible", "--name", name).split():
                self.tool("windowactivate", "--sync", found[-1])
                time.sleep(1)
                return
            time.sleep(0.3)
        sys.exit(f"no window has the name {name}")

    def click(self, x, y):
        self.tool("mousemove", str(x), str(y), "click", "1")
        time.sleep(1)

    def key(self, *keys, times=1):
        for key in keys * times:
            self.tool("key", "--clearmodifiers", key)
            time.sleep(0.15)

    def type(self, text, delay=30):
        """A line end is the key Return. With a delay of 0 it goes as quick as it can."""
        words = []
        for number, line in enumerate(text.split("\n")):
            words += ["key Return"] * (number > 0) + [f"type --delay {delay} {json.dumps(line)}"] * bool(line)
        subprocess.run(["xdotool", "-"], input="\n".join(words) + "\n", env=self.environment, text=True, check=False)
        time.sleep(0.3)

    def paste(self, text):
        subprocess.run(["xclip", "-selection", "clipboard", "-i"], input=text.encode(), env=self.environment, check=True)
        self.key("ctrl+v")
        time.sleep(0.4)

    def edits(self, redo, more=()):
        """Types, with letters of two units, undoes, saves at once behind the last key, types quickly, doubles the text, and undoes much.
        `more` are keys for further edits."""
        self.key("ctrl+End")
        self.type("plum = 1\n")
        self.paste('"emoji😀é" = 5\n')
        self.type("q = 'emoji")
        self.paste("😀é")
        self.key("Left", "Left", "BackSpace")
        self.type("x")
        self.key(*["ctrl+z"] * 4, redo, redo, "ctrl+s")
        time.sleep(1)
        self.key("ctrl+Home", *more, "ctrl+End")
        self.type("\n".join(f"n{number} = {number}" for number in range(60)) + "\n", delay=0)
        time.sleep(2)
        self.key("ctrl+s", "ctrl+a", "ctrl+c", "ctrl+End", "ctrl+v", "ctrl+s")
        time.sleep(1)
        self.key("ctrl+z", times=40)
        self.key("ctrl+s")
        self.key(redo, times=20)
        self.key("ctrl+s")
        time.sleep(1)

    def edits_returns(self):
        """Edits the file whose lines end in `\\r\\n`, at both ends, and saves it."""
        self.key("ctrl+Home")
        self.type("z = 2\n")
        self.key("ctrl+End")
        self.paste('"é" = 3\nw = nope\n')
        self.key("ctrl+s")
        time.sleep(1)

    def messages(self):
        """What passed so far: whether the client sent it, and the message."""
        name = Path(f"{COMMAND[1]}.1.lsp")
        lines = name.read_text(encoding="utf-8").split("\n")[:-1] if name.exists() else []
        return [(line.startswith("->"), json.loads(line[3:])) for line in lines]

    def replied(self, method):
        """The results of all requests of this method."""
        asked = [message["id"] for of_client, message in self.messages() if of_client and message.get("method") == method and "id" in message]
        return [message["result"] for of_client, message in self.messages()
                if not of_client and "method" not in message and message["id"] in asked and "result" in message]

    def note(self, what, holds):
        print(f"{what}: {'yes' if holds else 'NO'}", flush=True)
        if not holds:
            sys.exit(1)

    def marks(self, count, seconds=20):
        """Waits until so many marks are published for the first file. It has one, and one more unless the settings say TOML 1.1."""
        end, shown = time.monotonic() + seconds, []
        while shown[-1:] != [count] and time.monotonic() < end:
            time.sleep(0.3)
            told = [message["params"] for _, message in self.messages() if message.get("method") == "textDocument/publishDiagnostics"]
            shown = [len(params["diagnostics"]) for params in told if params["uri"].endswith(f"/{self.files[0].name}")]
        self.note(f"{count} marks, at last of {shown}", shown[-1:] == [count])

    def ends(self, process, status):
        """The editor ends, and its server with this status, or is killed. Then the session is held once more, by `recordings_client.py`,
        which compares the server's text behind each notification."""
        process.wait(timeout=60)
        time.sleep(2)
        name = f"{COMMAND[1]}.1"
        if Path(f"{name}.status").exists() and Path(f"{name}.status").read_text() != f"{status}\n":
            sys.exit(f"the server's status is not {status}")
        from recordings_client import replays  # here, since it asks for the built programs

        print("texts and replies:", replays(Path(f"{name}.lsp"), ["example_toml", *COMMAND[3:]]))
