"""A server over pylsp_jsonrpc: `serve` answers `demo/echo` with its params, `drops COUNT` with a list of COUNT places, and `texts` keeps
a document as its client edits it, and marks lines longer than 80."""
import sys

from pylsp_jsonrpc.endpoint import Endpoint
from pylsp_jsonrpc.streams import JsonRpcStreamReader, JsonRpcStreamWriter

LONGEST = 80


class Texts:
    def __init__(self, tell):
        self.tell = tell
        self.text = ""

    def opened(self, params):
        self.text = params["textDocument"]["text"]
        self.mark(params)

    def offset(self, place):
        """Where a place is in the text, if all of its characters are ASCII."""
        start = 0
        for _ in range(place["line"]):
            start = self.text.index("\n", start) + 1
        return start + place["character"]

    def changed(self, params):
        for change in params["contentChanges"]:
            start, end = (self.offset(change["range"][side]) for side in ("start", "end"))
            self.text = self.text[:start] + change["text"] + self.text[end:]
        self.mark(params)

    def mark(self, params):
        marks = []
        for number, line in enumerate(self.text.split("\n")):
            if len(line) > LONGEST:
                place = {"start": {"line": number, "character": LONGEST}, "end": {"line": number, "character": len(line)}}
                marks.append({"range": place, "message": "too long"})
        self.tell("textDocument/publishDiagnostics", {"uri": params["textDocument"]["uri"], "diagnostics": marks})


def main(words):
    reader, writer = JsonRpcStreamReader(sys.stdin.buffer), JsonRpcStreamWriter(sys.stdout.buffer)
    methods = {"initialize": lambda params: {"capabilities": {}}, "initialized": lambda params: None, "shutdown": lambda params: None}
    endpoint = Endpoint(methods, writer.write)
    places = [{"character": 7, "line": line} for line in range(int(words[1]))] if words[0] == "drops" else None
    texts = Texts(endpoint.notify)
    methods["demo/echo"] = lambda params: params if places is None else places
    methods["textDocument/didOpen"] = texts.opened
    methods["textDocument/didChange"] = texts.changed
    methods["exit"] = lambda params: reader.close()
    reader.listen(endpoint.consume)
    endpoint.shutdown()


if __name__ == "__main__":
    main(sys.argv[1:])
