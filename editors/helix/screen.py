"""A user of Helix in a terminal of `tmux`: sends keys, waits for what has to be on the screen, and looks at what `tap.py` wrote of the session.

LSP_SERVER="program argument .." names the server, which is `crates/example_toml/out/example_toml` without it. Its text can't be asked for in
Helix. So the text that the server has to have is made of the messages, and compared with the file that Helix wrote.
"""
import json
import os
import subprocess
import sys
import tempfile
import time
from pathlib import Path

sys.dont_write_bytecode = True
EDITORS = Path(__file__).resolve().parent.parent
sys.path.insert(0, str(EDITORS.parent / "tests"))

from recordings_client import Text  # noqa: E402

PATIENCE = 15
SETTINGS = (EDITORS / "helix" / "languages.toml").read_text()


class Helix:
    def __init__(self, lines, width=120):
        """Starts it with a file of these lines, in a terminal of this width."""
        self.folder = Path(tempfile.mkdtemp(prefix="helix"))
        words = os.environ.get("LSP_SERVER", "crates/example_toml/out/example_toml").split()
        if not words[0].endswith("tap.py"):
            words = ["editors/tap.py", str(self.folder / "tap"), *words]
        self.tap = words[1]
        command, *args = [str(Path(word).resolve()) if "/" in word else word for word in words]
        (self.folder / "helix").mkdir()
        settings = SETTINGS.replace('command = "/path/to/example_toml"', f'command = "{command}"\nargs = {json.dumps(args)}')
        (self.folder / "helix" / "languages.toml").write_text(settings)
        self.path = self.folder / "prices.toml"
        self.path.write_text("\n".join(lines) + "\n", newline="")
        home = f"HOME={self.folder} XDG_CONFIG_HOME={self.folder} XDG_CACHE_HOME={self.folder}"
        line = f"env {home} LANG=C.UTF-8 TERM=xterm-256color hx {self.path}; sleep 3"
        self.tmux("-u", "-f", "/dev/null", "new-session", "-d", "-x", str(width), "-y", "30", line)
        self.good = True

    def tmux(self, *words):
        command = ["tmux", "-S", self.folder / "tmux", *words]
        return subprocess.run(command, capture_output=True, check=False, timeout=PATIENCE).stdout.decode()

    def keys(self, *keys):
        for key in keys:
            self.tmux("send-keys", key)
            time.sleep(0.15)

    def type(self, text):
        """A key every 40 ms: Helix sends each key's change from a task of its own, and faster ones overtake one another."""
        for letter in text:
            self.tmux("send-keys", "-l", letter)
            time.sleep(0.04)
        time.sleep(0.2)

    def command(self, line):
        self.keys("Escape")
        self.type(":" + line)
        self.keys("Enter")
        time.sleep(0.5)

    def shows(self, text):
        return self.comes(lambda: text in self.tmux("capture-pane", "-p"))

    def comes(self, holds):
        end = time.monotonic() + PATIENCE
        while not holds() and time.monotonic() < end:
            time.sleep(0.1)
        return holds()

    def note(self, what, holds):
        self.good = self.good and bool(holds)
        print(f"{what}: {'yes' if holds else 'NO'}", flush=True)
        if not holds:
            print(self.tmux("capture-pane", "-p").rstrip())

    def messages(self, number=1):
        """What passed in a session: whether the client sent it, and the message."""
        name = Path(f"{self.tap}.{number}.lsp")
        lines = name.read_text(encoding="utf-8").split("\n")[:-1] if name.exists() else []
        return [(line.startswith("->"), json.loads(line[3:])) for line in lines]

    def texts(self, number=1):
        """The texts that are open in a session, as the messages tell them."""
        texts, encoding = {}, "utf-16"
        for of_client, message in self.messages(number):
            if "capabilities" in (message.get("result") or {}):
                encoding = message["result"]["capabilities"].get("positionEncoding", encoding)
            if of_client and message.get("method", "").startswith("textDocument/did"):
                uri = message["params"]["textDocument"]["uri"]
                texts.setdefault(uri, Text(encoding)).hear(message["method"], message["params"])
        return [text.text for text in texts.values() if text.text is not None]

    def marks(self):
        """The marks that the server published last."""
        told = [message["params"] for _, message in self.messages() if message.get("method") == "textDocument/publishDiagnostics"]
        return told[-1]["diagnostics"] if told else []

    def is_written(self, number=1):
        """Whether a write puts the text into the file that the messages tell."""
        self.command("w!")
        return self.comes(lambda: self.texts(number) == [self.path.read_bytes().decode()])

    def leaves(self):
        """Ends Helix, and gives the exit status of this script."""
        self.command("q!")
        time.sleep(1)
        self.tmux("kill-server")
        print("as it should be" if self.good else "NOT as it should be")
        return 0 if self.good else 1
