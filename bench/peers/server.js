// A server over vscode-languageserver: `serve` answers `demo/echo` with its params, `drops COUNT` with a list of COUNT places, and `texts`
// keeps a document as its client edits it, and marks lines longer than 80.
const { createConnection, StreamMessageReader, StreamMessageWriter, TextDocuments } = require("vscode-languageserver/node");
const { TextDocument } = require("vscode-languageserver-textdocument");

const LONGEST = 80;
const [way, count] = process.argv.slice(2);
const places = Array.from({ length: Number(count ?? 0) }, (_, line) => ({ character: 7, line }));
const connection = createConnection(new StreamMessageReader(process.stdin), new StreamMessageWriter(process.stdout));
connection.onInitialize(() => ({ capabilities: { textDocumentSync: 2 } }));
connection.onRequest("demo/echo", (params) => (way === "drops" ? places : params));
if (way === "texts") {
  const documents = new TextDocuments(TextDocument);
  documents.onDidChangeContent(({ document }) => {
    const diagnostics = [];
    document.getText().split("\n").forEach((text, line) => {
      const range = { start: { line, character: LONGEST }, end: { line, character: text.length } };
      if (text.length > LONGEST) diagnostics.push({ range, message: "too long" });
    });
    connection.sendDiagnostics({ uri: document.uri, diagnostics });
  });
  documents.listen(connection);
}
connection.listen();
