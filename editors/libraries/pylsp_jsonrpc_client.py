#!/usr/bin/env python3
"""python-lsp-jsonrpc's endpoint and streams hold a session. Its reading thread ends at the reply to a request that it cancelled: it cancels none."""
import os
import subprocess
import sys
import threading
import time

from pylsp_jsonrpc.endpoint import Endpoint
from pylsp_jsonrpc.exceptions import JsonRpcException
from pylsp_jsonrpc.streams import JsonRpcStreamReader, JsonRpcStreamWriter

URI, TEXT = "file:///project/a.toml", "[prices]\napple = 3\ntotal = { apple = 3, }\npear = nope\n"
DOCUMENT = {"textDocument": {"uri": URI}}
marks, asked = [], []


def holds(what, is_right):
    if not is_right:
        sys.exit(f"NO {what}")


def configure(params):
    asked.append(params)
    return [{"version": "1.1"}]


server = subprocess.Popen(os.environ["LSP_SERVER"].split(), stdin=subprocess.PIPE, stdout=subprocess.PIPE)
handlers = {"textDocument/publishDiagnostics": marks.append, "workspace/configuration": configure}
handlers |= dict.fromkeys(["window/logMessage", "$/progress"], lambda params: None)
endpoint = Endpoint(handlers, JsonRpcStreamWriter(server.stdin).write)
threading.Thread(target=JsonRpcStreamReader(server.stdout).listen, args=[endpoint.consume], daemon=True).start()


def ask(method, params):
    return endpoint.request(method, params).result(timeout=60)


ask("initialize", {"processId": None, "rootUri": None, "capabilities": {"workspace": {"configuration": True}}})
endpoint.notify("initialized", {})
endpoint.notify("textDocument/didOpen", {"textDocument": {"uri": URI, "languageId": "toml", "version": 1, "text": TEXT}})
for _ in range(400):
    if asked and marks and len(marks[-1]["diagnostics"]) == 1:
        break
    time.sleep(0.05)
holds("one mark, since the settings allow the other", asked and len(marks[-1]["diagnostics"]) == 1)
holds("a hover", ask("textDocument/hover", {**DOCUMENT, "position": {"line": 1, "character": 1}})["contents"]["value"] == "prices.apple: integer")
change = {"range": {"start": {"line": 1, "character": 0}, "end": {"line": 1, "character": 5}}, "text": "😀é"}
endpoint.notify("textDocument/didChange", {"textDocument": {"uri": URI, "version": 2}, "contentChanges": [change]})
holds("the text", ask("toml/text", DOCUMENT) == TEXT.replace("apple = 3", "😀é = 3", 1))
holds("a search", len(ask("workspace/symbol", {"query": "total"})) == 2)
try:
    holds("an unknown method", ask("no/such", {}) and False)
except JsonRpcException as error:
    holds("its error", error.code == -32601)
endpoint.notify("textDocument/didClose", DOCUMENT)
ask("shutdown", None)
endpoint.notify("exit", None)
holds("the status", server.wait(20) == 0)
os._exit(0)
