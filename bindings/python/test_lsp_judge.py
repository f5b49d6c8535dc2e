"""Tests of the module: `python3 -m unittest test_lsp_judge`, with LSP_JUDGE set to the shared object. The servers that are not installed are
skipped, and said."""
import json
import os
import re
import shutil
import subprocess
import sys
import unittest
from pathlib import Path

import lsp_judge

DATA = os.environ.get("LSP_JUDGE_DATA")
URI = "file:///home/user/project/x"
TEXTS = {"clangd": ("cpp", "int f(int a) { return a; }\nint main() { return f(1); }\n"), "pylsp": ("python", "def f(a):\n    return a\n\n\nf(1)\n")}
SERVERS = {"clangd": ["clangd", "--log=error"], "pylsp": [os.environ.get("PYLSP") or "pylsp"]}
EXAMPLE = os.environ.get("LSP_EXAMPLE")


class Client:
    """A small client that keeps what passes."""

    def __init__(self, *words):
        self.session, self.last = lsp_judge.Session(), 0
        how = {"stdin": subprocess.PIPE, "stdout": subprocess.PIPE, "stderr": subprocess.DEVNULL}
        self.server = subprocess.Popen(words, **how)

    def send(self, **members):
        content = json.dumps({"jsonrpc": "2.0", **members}).encode()
        self.session.sent(content)
        self.server.stdin.write(b"Content-Length: %d\r\n\r\n%s" % (len(content), content))
        self.server.stdin.flush()

    def read(self):
        length = 0
        while (line := self.server.stdout.readline()) not in (b"\r\n", b""):
            if line.lower().startswith(b"content-length:"):
                length = int(line.split(b":")[1])
        content = self.server.stdout.read(length)
        self.session.got(content)
        return json.loads(content)

    def ask(self, method, params=None):
        self.last += 1
        self.send(id=self.last, method=method, **({} if params is None else {"params": params}))
        while (it := self.read()).get("id") != self.last or "method" in it:
            if "method" in it and "id" in it:
                self.send(id=it["id"], result=[None] if it["method"] == "workspace/configuration" else None)
        return it.get("result")

    def tell(self, method, params=None):
        self.send(method=method, **({} if params is None else {"params": params}))

    def close(self):
        self.server.kill()
        self.server.wait()
        self.server.stdin.close()
        self.server.stdout.close()


def run(client, language, text, *, opens=1, early=False, version=2):
    document = {"uri": URI, "languageId": language, "version": 1, "text": text}
    if early:
        client.tell("textDocument/didOpen", {"textDocument": document})
    client.ask("initialize", {"processId": None, "rootUri": None, "capabilities": {"window": {"workDoneProgress": True}}})
    client.tell("initialized", {})
    for _ in range(opens):
        client.tell("textDocument/didOpen", {"textDocument": document})
    client.ask("textDocument/hover", {"textDocument": {"uri": URI}, "position": {"line": 0, "character": 4}})
    client.tell("textDocument/didChange", {"textDocument": {"uri": URI, "version": version}, "contentChanges": [{"text": text + "\n"}]})
    client.ask("shutdown")
    client.tell("exit")


class Servers(unittest.TestCase):
    def with_client(self, words, language, text, **how):
        if not shutil.which(words[0]):
            self.skipTest(f"{words[0]} is not installed")
        client = Client(*words)
        self.addCleanup(client.close)
        run(client, language, text, **how)
        return client.session

    def test_clangd_keeps_the_rules(self):
        self.with_client(SERVERS["clangd"], *TEXTS["clangd"]).check()

    def test_a_document_that_opens_twice(self):
        session = self.with_client(SERVERS["clangd"], *TEXTS["clangd"], opens=2)
        with self.assertRaisesRegex(AssertionError, r"line \d+: AlreadyOpen: .*\n    -> .*didOpen"):
            session.check()
        session.check(side="server")

    def test_a_message_before_initialize(self):
        session = self.with_client(SERVERS["clangd"], *TEXTS["clangd"], early=True)
        with self.assertRaisesRegex(AssertionError, "line 1: BeforeResult"):
            session.check()

    def test_a_version_that_stays(self):
        session = self.with_client(SERVERS["clangd"], *TEXTS["clangd"], version=1)
        with self.assertRaisesRegex(AssertionError, "VersionNotHigher"):
            session.check()

    def test_pylsp_breaks_at_most_the_rule_of_tokens(self):
        """Version 1.7.1 shows progress under tokens that it did not create (`window/workDoneProgress/create`)."""
        session = self.with_client(SERVERS["pylsp"], *TEXTS["pylsp"])
        try:
            session.check()
        except AssertionError as error:
            self.assertEqual(set(re.findall(r"line \d+: (\w+)", str(error))), {"NoSuchToken"})

    def test_our_own_example_keeps_the_rules(self):
        words = [EXAMPLE, "--stdio"] if EXAMPLE else ["no example"]
        self.with_client(words, "plaintext", "a text\n").check(level="implied")


def session_of(log, **how):
    """A session in which the lines of a recording passed."""
    session = lsp_judge.Session(**how)
    for line in log.splitlines():
        (session.sent if line.startswith(b"-> ") else session.got)(line[3:])
    return session


def failure_of(call):
    try:
        call()
    except AssertionError as error:
        return str(error)
    return None


class Messages(unittest.TestCase):
    """A session judges each message when it passes."""

    @unittest.skipUnless(DATA, "LSP_JUDGE_DATA names no recordings")
    def test_a_session_is_judged_as_its_recording(self):
        for path in sorted(Path(DATA).glob("*_*.lsp")):
            log = b"".join(it + b"\n" for it in path.read_bytes().splitlines() if it[:3] in (b"-> ", b"<- "))
            for side, level in (("server", "should"), ("client", "must"), ("both", "implied")):
                session = session_of(log, side=side, level=level, begins_late=True)
                self.assertEqual(session._end(), lsp_judge.judge(log, side, level, begins_late=True), path.name)
                at_once = failure_of(lambda: session_of(log, side=side, level=level, begins_late=True, raise_at_once=True).check())
                failed = failure_of(session.check)
                self.assertEqual(at_once is None, failed is None, path.name)
                self.assertIn(at_once.splitlines()[0] if at_once else "", failed or "", path.name)

    def test_a_wrong_message_raises_at_once(self):
        session = lsp_judge.Session("server", raise_at_once=True)
        session.sent({"jsonrpc": "2.0", "id": 1, "method": "initialize", "params": {"capabilities": {}}})
        session.got({"jsonrpc": "2.0", "id": 1, "result": {"capabilities": {}}})
        session.sent({"jsonrpc": "2.0", "method": "textDocument/didSave"})
        with self.assertRaisesRegex(AssertionError, "^line 4: NobodyAsked: .*\n    <- "):
            session.got({"jsonrpc": "2.0", "id": 1, "result": None})
        session.sent({"jsonrpc": "2.0", "id": 2, "method": "shutdown"})
        with self.assertRaisesRegex(AssertionError, "line 6: NotJson"):
            session.got(b"hello")
        with self.assertRaisesRegex(AssertionError, "^line 4: NobodyAsked"):
            session.check()

    def test_a_session_goes_on_behind_its_check(self):
        session = lsp_judge.Session(level="implied", capabilities=True)
        session.sent({"jsonrpc": "2.0", "id": 1, "method": "initialize", "params": {"capabilities": {}}})
        session.got({"jsonrpc": "2.0", "id": 1, "result": {"capabilities": {}}})
        self.assertEqual((session.check()["requests"], session.check()["replies"]), (1, 1))
        session.sent({"jsonrpc": "2.0", "method": "initialized", "params": {}})
        self.assertEqual(session.check()["requests"], 1)
        session.sent({"jsonrpc": "2.0", "id": 2, "method": "textDocument/hover", "params": {}})
        session.got({"jsonrpc": "2.0", "id": 2, "result": None})
        with self.assertRaisesRegex(AssertionError, "NotAnnounced"):
            session.check()
        session.check("server", "must")
        self.assertEqual(session.log().count(b"\n"), 5)

    def test_a_report_that_does_not_fit_is_told_whole(self):
        calls = [b'-> {"jsonrpc":"2.0","id":%d,"method":"a"}\n' % it for it in range(500)]
        start = [b'-> {"jsonrpc":"2.0","id":"i","method":"initialize","params":{}}\n', b'<- {"jsonrpc":"2.0","id":"i","result":{}}\n']
        over = [b'-> {"jsonrpc":"2.0","id":"s","method":"shutdown"}\n', b'-> {"jsonrpc":"2.0","method":"exit"}\n']
        log = b"".join([*start, *calls, *over, *start])
        session = session_of(log)
        self.assertEqual(session._end(), lsp_judge.judge(log, level="must"))
        self.assertGreater(session._room, 1 << 14)
        self.assertIn("line 502: NoReply", failure_of(session.check))


class Recordings(unittest.TestCase):
    @unittest.skipUnless(DATA, "LSP_JUDGE_DATA names no recordings")
    def test_each_rule(self):
        for it in lsp_judge.rules():
            if it["group"] not in ("session", "capabilities"):
                continue
            rule, is_of_session = it["rule"], it["group"] == "session"
            how = {"recording": is_of_session, "capabilities": not is_of_session, "begins_late": True}
            kept, broken = (Path(DATA, it[name]).read_bytes() for name in ("keeps", "breaks"))
            self.assertEqual(lsp_judge.judge(kept, **how)[0], lsp_judge.CLEAN, rule)
            status, report = lsp_judge.judge(broken, **how)
            self.assertNotEqual(status, lsp_judge.CLEAN, rule)
            self.assertIn(rule, [it.get("rule") for it in report])

    @unittest.skipUnless(DATA and os.environ.get("LSP_CHECK"), "LSP_CHECK names no program")
    def test_the_same_report_as_lsp_check(self):
        for path in sorted(it for it in Path(DATA).iterdir() if it.suffix in (".lsp", ".log")):
            for side, level, group in (("server", "should", "session"), ("client", "must", "session"), ("both", "implied", "capabilities")):
                words = [os.environ["LSP_CHECK"], "--json", "--fail-on", side, "--level", level, "--rules", group, "-"]
                ran = subprocess.run(words, input=path.read_bytes(), capture_output=True, check=False)
                wanted = [json.loads(it.replace('"file":"-"', '"file":"log"')) for it in ran.stdout.decode().splitlines()]
                how = {"recording": False, "begins_late": True, "capabilities": group != "session"}
                self.assertEqual(lsp_judge.judge(path.read_bytes(), side, level, **how), (ran.returncode, wanted), path.name)

    @unittest.skipUnless(DATA, "LSP_JUDGE_DATA names no recordings")
    def test_a_recording_is_judged_alike_in_both_formats(self):
        for path in sorted(Path(DATA).glob("*_*.lsp")):
            log = path.read_bytes()
            status, report = lsp_judge.judge(log, begins_late=True)
            if status != lsp_judge.UNREAD and log.endswith(b"\n"):
                self.assertEqual((status, report), lsp_judge.judge(log, begins_late=True, recording=False), path.name)

    def test_nothing_is_not_clean(self):
        for log in (b"", b"\n \r\n", b"hello", b"hello\n"):
            self.assertEqual(lsp_judge.judge(log)[0], lsp_judge.NOTHING, log)
        for log in (b"-> hello", b"<- \xff\n", b"-> " + b"[" * 128 + b"]" * 128):
            side = "server" if log.startswith(b"->") else "client"
            self.assertEqual(lsp_judge.judge(log, side)[0], lsp_judge.UNREAD, log)
        with self.assertRaisesRegex(AssertionError, "no message"):
            lsp_judge.Session().check()

    def test_a_report_that_does_not_fit_is_asked_for_again(self):
        log = b"".join(b'<- {"jsonrpc":"2.0","id":%d,"result":null}\n' % it for it in range(2000))
        status, report = lsp_judge.judge(log)
        self.assertEqual((status, report[-1]["breaches"]), (lsp_judge.BROKEN, len(report) - 1))
        self.assertEqual({it["line"] for it in report[:-1] if it["rule"] == "NobodyAsked"}, set(range(1, 2001)))
        self.assertEqual({it["line"] for it in lsp_judge.judge(log, from_line=1999)[1] if it["kind"] == "breach"}, {1999, 2000})

    def test_a_session_shows_the_message(self):
        session = lsp_judge.Session()
        session.sent({"jsonrpc": "2.0", "id": 1, "method": "initialize", "params": {"capabilities": {}}})
        session.got(b'{"jsonrpc":"2.0",\r\n "id":1,\n"result":{"capabilities":{}}}')
        self.assertEqual((session.check()["requests"], session.check()["replies"]), (1, 1))
        session.got(b'{"jsonrpc":"2.0","method":"window/logMessage","params":{"type":3,"message":"a raw\nline break"}}')
        with self.assertRaisesRegex(AssertionError, r'line 3: NotJson: .*\n    <- .*a raw'):
            session.check()
        with self.assertRaisesRegex(AssertionError, "line 3: NotJson"):
            session.check(side="client")

    def test_options_that_do_not_go_together(self):
        for options in ({"capabilities": True}, {"recording": False, "from_line": 2}):
            with self.assertRaisesRegex(ValueError, "options"):
                lsp_judge.judge(b"", **options)


if __name__ == "__main__":
    sys.exit(unittest.main())
