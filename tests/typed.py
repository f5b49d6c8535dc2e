#!/usr/bin/env python3
"""Checks whether the messages of a language server have the members of LSP 3.17, by LSP's meta model.

    tests/typed.py RECORDING ..          lists the errors in the messages of each recording's server, one on a line
    tests/typed.py crates/PROGRAM ..     does the same for the messages in `stdout`, which reply to those in `stdin`

A client passes each message that it sends to `Typed.sent`, and each that it receives to `Typed.came`. `came` lists the errors: a key that the
type does not have, a member that is missing or has another type, a null where none is allowed, a method that LSP does not have.
`.ci/run` calls it.
"""
import json
import sys
from pathlib import Path

sys.dont_write_bytecode = True
sys.path.append(str(Path(__file__).resolve().parent.parent / "tools"))
from lsp import Difference

try:
    import metamodel
except ImportError as fault:
    # (an ImportError would say to `editor.py` that nothing is to be judged)
    sys.exit(f"tests/typed.py: {fault}: it is in tools")

# The first words of methods that are a server's own, also of servers that only recordings have.
OWN = ("demo/", "toml/", "sums/", "words/")
# Types that the standard tells more narrowly in words than the meta model, and the error of JSON-RPC 2.0.
NARROWER = """\
ProgressParams = { token: integer | string; value: WorkDoneProgressBegin | WorkDoneProgressReport | WorkDoneProgressEnd |
    DocumentDiagnosticReportPartialResult | [any] }
SemanticTokensOptions = { legend: SemanticTokensLegend; range?: boolean | {any}; full?: boolean | SemanticTokensOptionsFullType1;
    workDoneProgress?: boolean }
ResponseError = { code: integer; message: string; data?: any }
"""
# Values may nest deep.
sys.setrecursionlimit(10_000)
TYPES, METHODS = metamodel.read()
WRONG = metamodel.Values(TYPES | metamodel.parse(NARROWER)[0]).wrong


class Typed:
    """What was asked in a session, and what is wrong with what comes."""

    def __init__(self):
        self.asked = {}

    def sent(self, message):
        if "method" in message and "id" in message:
            self.asked.setdefault(message["id"], []).append(message["method"])

    def came(self, message):
        """What is wrong with a message of the server's."""
        if not isinstance(message, dict) or message.get("jsonrpc") != "2.0":
            return ["a message that is no object of JSON-RPC 2.0"]
        if "method" in message:
            kind = "request" if "id" in message else "notification"
            return self.call(kind, message)
        return self.reply(message)

    def call(self, kind, message):
        method = message["method"]
        keys = {"jsonrpc", "id", "method", "params"} if kind == "request" else {"jsonrpc", "method", "params"}
        faults = [f"{method}: the key {key}" for key in message if key not in keys]
        if method.startswith(OWN):
            return faults
        known, direction, params, _ = METHODS.get(method, ("", "", [], []))
        if known != kind or direction == "server":
            return [f"{method} is no {kind} of a server in LSP"]
        if not params:
            return faults + [f"{method}: params"] * ("params" in message)
        return faults + WRONG(params, message.get("params"), method)

    def reply(self, message):
        waiting = self.asked.get(message.get("id"))
        if not waiting:
            return [f"a reply to {message.get('id')!r}, which was not asked"]
        method = waiting.pop(0)
        faults = [f"the reply to {method}: the key {key}" for key in message if key not in ("jsonrpc", "id", "result", "error")]
        if ("result" in message) == ("error" in message):
            return faults + [f"the reply to {method}: neither a result nor an error, or both"]
        if "error" in message:
            return faults + WRONG(["ResponseError"], message["error"], f"the error of {method}")
        kind, direction, _, result = METHODS.get(method, ("", "", [], []))
        if kind != "request" or direction == "client":
            return faults + [f"a result of {method}, which LSP does not have"] * (not method.startswith(OWN))
        return faults + WRONG(result, message["result"], f"the result of {method}")


def lines_of(recording):
    """Whether each message of a recording is its client's, and the message."""
    for number, line in enumerate(Path(recording).read_text(encoding="utf-8").split("\n")[:-1], 1):
        try:
            if line[:3] not in ("-> ", "<- "):
                raise ValueError("it does not begin with `-> ` or `<- `")
            message = json.loads(line[3:])
        except ValueError as fault:
            raise Difference(f"{recording}:{number}: the line is no message: {fault}") from None
        yield line.startswith("->"), message


def stored_in(crate):
    """The messages of a program's stored run, each with its place. A content part of the client's that is no JSON is passed over: a client
    may send one, and the server has to go on."""
    for name in ["stdin", "stdout"]:
        data = whole = (Path(crate) / name).read_bytes()
        while data:
            head, _, rest = data.partition(b"\r\n\r\n")
            line = whole.count(b"\n", 0, len(whole) - len(rest)) + 1
            place = f"{crate}/{name}:{line}"
            try:
                length = int(head.removeprefix(b"Content-Length: "))
            except ValueError:
                sys.exit(f"{place}: this header part has no length of a content part: {head[-60:]!r}")
            content, data = rest[:length], rest[length:]
            if len(content) < length:
                sys.exit(f"{place}: the content part has {len(content)} bytes, and its header part says {length}")
            try:
                yield place, name == "stdin", json.loads(content)
            except ValueError:
                if name == "stdout":
                    sys.exit(f"{place}: the content part is no JSON: {content[:60].decode(errors='replace')!r}")


def recorded_in(name):
    """The messages of a recording, each with its place."""
    for number, (of_client, message) in enumerate(lines_of(name), 1):
        yield f"{name}:{number}", of_client, message


def main(names):
    count, faults = 0, []
    for name in names:
        typed, before = Typed(), count
        for place, of_client, message in stored_in(name) if Path(name).is_dir() else recorded_in(name):
            if of_client:
                typed.sent(message)
            else:
                count += 1
                faults += [f"{place}: {fault}" for fault in typed.came(message)]
        faults += [f"{name}: no message of a server"] * (count == before)
    print(*faults, f"{count} messages, {len(faults)} faults", sep="\n")
    sys.exit(1 if faults else 0)


if __name__ == "__main__":
    try:
        main(sys.argv[1:])
    except Difference as fault:
        sys.exit(str(fault))
