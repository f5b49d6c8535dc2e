-> {"jsonrpc":"2.0","id":1,"method":"initialize"}
<- {"jsonrpc":"2.0","id":1,"result":null}
-> {"jsonrpc":"2.0","method":"initialized"}
-> {"jsonrpc":"2.0","method":"exit"}
-> {"jsonrpc":"2.0","method":"textDocument/didOpen","params":{"textDocument":{"uri":"file:///project/one.words","version":0}}}
<- {"jsonrpc":"2.0","id":3,"method":"workspace/configuration","params":{"partialResultToken":1}}
-> {"jsonrpc":"2.0","id":3,"result":null}
<- {"jsonrpc":"2.0","method":"$/progress","params":{"token":"start","value":{"kind":"end"}}}
-> {"jsonrpc":"2.0","id":4,"method":"textDocument/definition","params":{"textDocument":{"uri":"file:///project/one.words"}}}
<- {"jsonrpc":"2.0","id":4,"result":null}
<- {"jsonrpc": "2.0", "id": 92, "result": null}
-> {"jsonrpc":"2.0","method":"textDocument/didChange","params":{"textDocument":{"uri":"file:///project/one.words","version":2}}}
-> {"jsonrpc":"2.0","method":"textDocument/didChange","params":{"textDocument":{"uri":"file:///project/one.words","version":3}}}
-> {"jsonrpc":"2.0","method":"textDocument/didChange","params":{"textDocument":{"uri":"file:///project/one.words","version":5}}}
-> {"jsonrpc":"2.0","id":22,"method":"textDocument/rename","params":{"textDocument":{"uri":"file:///project/one.words"}}}
<- {"jsonrpc":"2.0","id":22,"result":null}
-> {"jsonrpc":"2.0","method":"exit"}
-> {"jsonrpc":"2.0","id":30,"method":"words/text","params":{"textDocument":{"uri":"file:///project/one.words"}}}
<- {"jsonrpc": "2.0", "id": 92, "result": null}
<- {"jsonrpc":"2.0","id":30,"result":null}
<- {"jsonrpc":"2.0","method":"textDocument/publishDiagnostics"}
-> {"jsonrpc":"2.0","method":"textDocument/didOpen","params":{"textDocument":{"uri":"file:///project/one.words","version":0}}}
-> {"jsonrpc":"2.0","method":"textDocument/didOpen","params":{"textDocument":{"uri":"file:///project/one.words","version":0}}}
-> {"jsonrpc":"2.0","id":35,"method":"words/text","params":{"textDocument":{"uri":"file:///project/one.words"},"workDoneToken":1}}
<- {"jsonrpc":"2.0","id":35,"error":{"code":1,"message":""}}
-> {"jsonrpc":"2.0","id":36,"method":"shutdown"}
<- {"jsonrpc":"2.0","id":36,"result":null}
-> {"jsonrpc":"2.0","method":"textDocument/didChange","params":{"textDocument":{"uri":"file:///project/one.words","version":8}}}
