# Ruby's language_server-protocol holds a session by its reader and writer: marks, settings, a hover, an edit, a cancelled request.
require "language_server-protocol"
require "open3"
require "timeout"

URI_OF_TEXT = "file:///project/a.toml"
TEXT = "[prices]\napple = 3\ntotal = { apple = 3, }\npear = nope\n"
LONG = "file:///project/long.toml"
# Without one of these arguments a pool searches, and a search can be cancelled. With them it may be answered first.
POOLED = (%w[inline threads] & ENV.fetch("LSP_SERVER").split).empty?
DOCUMENT = { textDocument: { uri: URI_OF_TEXT } }

input, output, server = Open3.popen2(*ENV.fetch("LSP_SERVER").split)
$writer = LanguageServer::Protocol::Transport::Io::Writer.new(input)
$came = Queue.new
Thread.new { LanguageServer::Protocol::Transport::Io::Reader.new(output).read { |message| $came << message } }

def holds(what, is_right)
  abort "NO #{what}" unless is_right
end

def wait
  loop do
    message = Timeout.timeout(60) { $came.pop }
    $writer.write(id: message[:id], result: [{ version: "1.1" }]) if message[:method] == "workspace/configuration"
    return message if yield message
  end
end

def ask(id, method, params)
  $writer.write(id: id, method: method, params: params)
  wait { |message| message[:id] == id && !message[:method] }
end

ask(1, "initialize", { processId: nil, rootUri: nil, capabilities: { workspace: { configuration: true } } })
$writer.write(method: "initialized", params: {})
$writer.write(method: "textDocument/didOpen", params: { textDocument: { uri: URI_OF_TEXT, languageId: "toml", version: 1, text: TEXT } })
# (it waits for one mark, since the settings allow the other)
wait { |message| message[:method] == "textDocument/publishDiagnostics" && message[:params][:diagnostics].size == 1 }
hover = ask(2, "textDocument/hover", { **DOCUMENT, position: { line: 1, character: 1 } })
holds "a hover", hover[:result][:contents][:value] == "prices.apple: integer"
change = { range: { start: { line: 1, character: 0 }, end: { line: 1, character: 5 } }, text: "😀é" }
$writer.write(method: "textDocument/didChange", params: { textDocument: { uri: URI_OF_TEXT, version: 2 }, contentChanges: [change] })
holds "the text", ask(3, "toml/text", DOCUMENT)[:result] == TEXT.sub("apple = 3", "😀é = 3")
holds "a search", ask(4, "workspace/symbol", { query: "total" })[:result].size == 2
holds "an unknown method", ask(5, "no/such", {})[:error][:code] == -32601
long = (1..20_000).map { |number| "key_#{number} = 1\n" }.join
$writer.write(method: "textDocument/didOpen", params: { textDocument: { uri: LONG, languageId: "toml", version: 1, text: long } })
$writer.write(id: "c", method: "workspace/symbol", params: { query: "key_" })
$writer.write(method: "$/cancelRequest", params: { id: "c" })
outcome = wait { |message| message[:id] == "c" }
holds "a cancelled request", outcome[:error] ? outcome[:error][:code] == -32800 : !POOLED
ask(6, "shutdown", nil)
$writer.write(method: "exit")
holds "the status", server.value.exitstatus == 0
