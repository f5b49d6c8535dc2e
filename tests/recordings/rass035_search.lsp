-> {"jsonrpc":"2.0","id":"fe873c94-0928-4d8d-97de-c5564c7e23b3","method":"initialize","params":{"processId":null,"rootUri":null,"capabilities":{"textDocument":{},"workspace":{"configuration":true}}}}
<- {"jsonrpc":"2.0","id":"fe873c94-0928-4d8d-97de-c5564c7e23b3","result":{"capabilities":{"hoverProvider":true,"positionEncoding":"utf-16","textDocumentSync":{"change":2,"openClose":true,"save":{"includeText":true}},"workspaceSymbolProvider":{"workDoneProgress":true}},"serverInfo":{"name":"sums"}}}
-> {"jsonrpc":"2.0","method":"initialized","params":{}}
-> {"jsonrpc":"2.0","method":"textDocument/didOpen","params":{"textDocument":{"uri":"file:///project/a.sums","languageId":"sums","version":1,"text":"# prices\napple = 3\ntotal = apple + 4 - nope\n"}}}
<- {"jsonrpc":"2.0","id":0,"method":"workspace/configuration","params":{"items":[{"section":"sums"}]}}
-> {"jsonrpc":"2.0","id":0,"result":[{"largest":20}]}
<- {"jsonrpc":"2.0","method":"textDocument/publishDiagnostics","params":{"diagnostics":[{"message":"`nope`: has no value","range":{"end":{"character":24,"line":2},"start":{"character":20,"line":2}},"severity":1,"source":"sums"}],"uri":"file:///project/a.sums"}}
<- {"jsonrpc":"2.0","method":"textDocument/publishDiagnostics","params":{"diagnostics":[{"message":"`nope`: has no value","range":{"end":{"character":24,"line":2},"start":{"character":20,"line":2}},"severity":1,"source":"sums"}],"uri":"file:///project/a.sums"}}
-> {"jsonrpc":"2.0","id":"e4b1208f-ac87-4c23-843b-cc8a69c64c40","method":"textDocument/hover","params":{"textDocument":{"uri":"file:///project/a.sums"},"position":{"line":1,"character":1}}}
<- {"jsonrpc":"2.0","id":"e4b1208f-ac87-4c23-843b-cc8a69c64c40","result":{"contents":"apple = 3","range":{"end":{"character":5,"line":1},"start":{"character":0,"line":1}}}}
-> {"jsonrpc":"2.0","method":"textDocument/didChange","params":{"textDocument":{"uri":"file:///project/a.sums","version":2},"contentChanges":[{"range":{"start":{"line":1,"character":0},"end":{"line":1,"character":5}},"text":"😀é"}]}}
-> {"jsonrpc":"2.0","id":"ab6b8767-c381-4ae5-a661-1f662e885327","method":"sums/text","params":{"textDocument":{"uri":"file:///project/a.sums"}}}
<- {"jsonrpc":"2.0","method":"textDocument/publishDiagnostics","params":{"diagnostics":[{"message":"`😀`: is no name","range":{"end":{"character":2,"line":1},"start":{"character":0,"line":1}},"severity":1,"source":"sums"},{"message":"`apple`: has no value","range":{"end":{"character":13,"line":2},"start":{"character":8,"line":2}},"severity":1,"source":"sums"}],"uri":"file:///project/a.sums"}}
<- {"jsonrpc":"2.0","id":"ab6b8767-c381-4ae5-a661-1f662e885327","result":"# prices\n😀é = 3\ntotal = apple + 4 - nope\n"}
-> {"jsonrpc":"2.0","id":"94aefd59-0463-4317-9e9a-2def0def9c37","method":"workspace/symbol","params":{"query":"pri"}}
<- {"jsonrpc":"2.0","id":"94aefd59-0463-4317-9e9a-2def0def9c37","result":[{"kind":15,"location":{"range":{"end":{"character":0,"line":0},"start":{"character":0,"line":0}},"uri":"file:///project/a.sums"},"name":"prices"}]}
-> {"jsonrpc":"2.0","id":"6e716ad5-9632-4e5b-a5a3-8bc8cbe51a92","method":"no/such"}
<- {"jsonrpc":"2.0","id":"6e716ad5-9632-4e5b-a5a3-8bc8cbe51a92","error":{"code":-32601,"message":"method not found"}}
-> {"jsonrpc":"2.0","method":"textDocument/didClose","params":{"textDocument":{"uri":"file:///project/a.sums"}}}
-> {"jsonrpc":"2.0","id":"9771813c-7f18-44df-bbbc-5d83b475c6d1","method":"shutdown"}
<- {"jsonrpc":"2.0","method":"textDocument/publishDiagnostics","params":{"diagnostics":[],"uri":"file:///project/a.sums"}}
<- {"jsonrpc":"2.0","id":"9771813c-7f18-44df-bbbc-5d83b475c6d1","result":null}
