"""Has `lsp_check` judge the sessions of the clients. A client may break rules, to test the server. A server may not.

If a client imports this, each message that it sends or receives is recorded in its session. All sessions are judged at the end.
"""
import json
import subprocess
import tempfile
from pathlib import Path

from lsp import PATIENCE, Client, Difference, built, expect
from typed import Typed


def judged(names, folder=None):
    """What `lsp_check` says of these recordings, of which there has to be one and none may be left out: a list of what it told."""
    try:
        ran = subprocess.run([*built("lsp_check"), "--json", *names], cwd=folder, capture_output=True, text=True, timeout=PATIENCE, check=False)
        told = [json.loads(line) for line in ran.stdout.splitlines()]
    except subprocess.TimeoutExpired:
        raise Difference(f"lsp_check did not judge {len(names)} sessions within {PATIENCE:g} seconds") from None
    except (OSError, ValueError) as fault:
        raise Difference(f"lsp_check did not judge {len(names)} sessions, or not in lines of JSON: {fault}") from None
    read = sum(line["kind"] == "summary" for line in told)
    if not names or read != len(names) or ran.returncode not in (0, 1, 3):
        raise Difference(f"lsp_check judged {read} of {len(names)} sessions, and ended with status {ran.returncode}: {ran.stderr.strip()}")
    return told


class Watched(Typed):
    sessions = []

    def __init__(self):
        super().__init__()
        self.lines = []
        self.sessions.append(self.lines)

    def sent(self, message):
        self.lines.append(f"-> {json.dumps(message)}\n")
        super().sent(message)

    def came(self, message):
        self.lines.append(f"<- {json.dumps(message)}\n")
        return super().came(message)

    @classmethod
    def judge(cls):
        """No server may have broken a rule in any of the sessions, and no message is left unread."""
        names = [f"{at}.lsp" for at in range(len(cls.sessions))]
        with tempfile.TemporaryDirectory() as folder:
            for name, lines in zip(names, cls.sessions):
                (Path(folder) / name).write_text("".join(lines))
            told = judged(names, folder)
        wrong = [line for line in told if line["kind"] == "stop" or line["kind"] == "breach" and line["side"] == "server"]
        expect("what lsp_check says of the server", wrong, [])


Client.watch = Watched
