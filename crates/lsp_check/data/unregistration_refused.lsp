-> {"jsonrpc":"2.0","id":0,"method":"initialize","params":{"processId":null,"rootUri":null,"capabilities":{"textDocument":{"hover":{"dynamicRegistration":true},"semanticTokens":{"dynamicRegistration":true,"requests":{"full":true},"tokenTypes":[],"tokenModifiers":[],"formats":["relative"]}},"workspace":{"executeCommand":{"dynamicRegistration":true}},"notebookDocument":{"synchronization":{}}}}}
<- {"jsonrpc":"2.0","id":0,"result":{"capabilities":{}}}
-> {"jsonrpc":"2.0","method":"initialized","params":{}}
<- {"jsonrpc":"2.0","id":2,"method":"client/registerCapability","params":{"registrations":[{"id":"r","method":"textDocument/hover","registerOptions":{}}]}}
-> {"jsonrpc":"2.0","id":2,"result":null}
<- {"jsonrpc":"2.0","id":2,"method":"client/unregisterCapability","params":{"unregisterations":[{"id":"r","method":"textDocument/hover"}]}}
-> {"jsonrpc":"2.0","id":2,"error":{"code":-32803,"message":"the project is not ready"}}
-> {"jsonrpc":"2.0","id":1,"method":"textDocument/hover","params":{"textDocument":{"uri":"file:///a"},"position":{"line":0,"character":0}}}
<- {"jsonrpc":"2.0","id":1,"result":null}
-> {"jsonrpc":"2.0","id":1,"method":"textDocument/hover","params":{"textDocument":{"uri":"file:///a"},"position":{"line":0,"character":0}}}
<- {"jsonrpc":"2.0","id":1,"error":{"code":-32601,"message":"no such method"}}
-> {"jsonrpc":"2.0","id":9,"method":"shutdown"}
<- {"jsonrpc":"2.0","id":9,"result":null}
-> {"jsonrpc":"2.0","method":"exit"}
