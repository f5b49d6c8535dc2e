<- {"jsonrpc":"2.0","id":0,"result":null}
-> {"jsonrpc":"2.0","method":"initialized"}
-> {"jsonrpc":"2.0","method":"textDocument/didOpen","params":{"textDocument":{"uri":"file:///project/go/main.go","version":0}}}
<- {"jsonrpc":"2.0","method":"$/progress","params":{"token":"3532344000688779950","value":{"kind":"begin"}}}
<- {"jsonrpc":"2.0","id":2,"method":"workspace/configuration"}
-> {"jsonrpc":"2.0","error":{"code":1.0,"message":""}}
-> {"jsonrpc":"2.0","id":2,"result":null}
-> {"jsonrpc":"2.0","id":3,"method":"textDocument/references","params":{"textDocument":{"uri":"file:///project/go/main.go"}}}
<- {"jsonrpc":"2.0","id":3,"result":null}
<- {"jsonrpc":"2.0","method":"textDocument/publishDiagnostics"}
<- {"jsonrpc":"2.0","id":15,"result":null}
-> {"jsonrpc":"2.0","method":"textDocument/didChange","params":{"textDocument":{"uri":"file:///project/go/main.go","version":4}}}
-> {"jsonrpc":"2.0","method":"textDocument/didChange","params":{"textDocument":{"uri":"file:///project/go/main.go","version":6}}}
<- {"jsonrpc":"2.0","method":"textDocument/publishDiagnostics"}
-> {"jsonrpc":"2.0","id":15,"method":"shutdown"}

<- {"jsonrpc": "2.0", "id": 90, "result": null}
<- {"jsonrpc":"2.0","id":15,"result":null}
