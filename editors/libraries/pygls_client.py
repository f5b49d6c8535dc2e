#!/usr/bin/env python3
"""pygls' own typed client holds a session: marks, settings, a hover, edits in code points, a search, cancellation, the end."""
import asyncio
import os
import sys

from lsprotocol import types as lsp
from pygls.exceptions import JsonRpcException
from pygls.lsp.client import BaseLanguageClient

URI, TEXT = "file:///project/a.toml", "[prices]\napple = 3\ntotal = { apple = 3, }\npear = nope\n"
DOCUMENT, LONG = lsp.TextDocumentIdentifier(URI), "file:///project/long.toml"
# Without one of these arguments a pool searches, and a search can be cancelled. With them it may be answered first.
POOLED = not {"inline", "threads"} & set(os.environ["LSP_SERVER"].split())


def holds(what, is_right):
    if not is_right:
        sys.exit(f"NO {what}")


async def error_of(answer):
    try:
        await asyncio.wait_for(asyncio.wrap_future(answer), 60)
    except JsonRpcException as error:
        return error.code


async def session(command):
    client, marks, asked = BaseLanguageClient("client", "1"), [], []
    client.feature("textDocument/publishDiagnostics")(lambda params: marks.append(params.diagnostics))
    client.feature("workspace/configuration")(lambda params: asked.append(params) or [{"version": "1.1"}])
    client.feature("window/logMessage")(lambda params: None)
    client.feature("$/progress")(lambda params: None)

    async def comes(what, has_come):
        for _ in range(400):
            if has_come():
                return
            await asyncio.sleep(0.05)
        holds(what, False)

    await client.start_io(*command)
    general = lsp.GeneralClientCapabilities(position_encodings=[lsp.PositionEncodingKind.Utf32])
    workspace = lsp.WorkspaceClientCapabilities(configuration=True)
    result = await client.initialize_async(lsp.InitializeParams(lsp.ClientCapabilities(workspace=workspace, general=general)))
    holds("the encoding", result.capabilities.position_encoding == "utf-32")
    client.initialized(lsp.InitializedParams())
    client.text_document_did_open(lsp.DidOpenTextDocumentParams(lsp.TextDocumentItem(URI, "toml", 1, TEXT)))
    await comes("one mark, since the settings allow the other", lambda: asked and marks and len(marks[-1]) == 1)
    hover = await client.text_document_hover_async(lsp.HoverParams(DOCUMENT, lsp.Position(1, 1)))
    holds("a hover", hover.contents.value == "prices.apple: integer")
    changes = [((1, 0), (1, 5), "😀é"), ((1, 1), (1, 2), "ü")]
    client.text_document_did_change(lsp.DidChangeTextDocumentParams(lsp.VersionedTextDocumentIdentifier(2, URI), [
        lsp.TextDocumentContentChangeEvent_Type1(lsp.Range(lsp.Position(*start), lsp.Position(*end)), new) for start, end, new in changes]))
    text = await client.protocol.send_request_async("toml/text", {"textDocument": {"uri": URI}})
    holds("the text", text == TEXT.replace("apple = 3", "😀ü = 3", 1))
    holds("a search", [it.name for it in await client.workspace_symbol_async(lsp.WorkspaceSymbolParams("total"))] == ["prices.total", "prices.total.apple"])
    holds("an unknown method", await error_of(client.protocol.send_request("toml/unknown", {})) == -32601)
    client.text_document_did_open(lsp.DidOpenTextDocumentParams(lsp.TextDocumentItem(LONG, "toml", 1, "".join(f"key_{it} = 1\n" for it in range(20_000)))))
    waiting = [client.protocol.send_request("workspace/symbol", lsp.WorkspaceSymbolParams("key_")) for _ in range(200 if POOLED else 3)]
    for id, future in list(client.protocol._request_futures.items()):
        if future in waiting:
            client.cancel_request(lsp.CancelParams(id))
    errors = [await error_of(it) for it in waiting]
    holds("requests that are cancelled", set(errors) <= ({-32800} if POOLED else {-32800, None}))
    client.text_document_did_close(lsp.DidCloseTextDocumentParams(DOCUMENT))
    await comes("no marks of a closed document", lambda: marks[-1] == [])
    await client.shutdown_async(None)
    client.exit(None)
    holds("the status", await asyncio.wait_for(client._server.wait(), 20) == 0)


asyncio.run(session(os.environ["LSP_SERVER"].split()))
