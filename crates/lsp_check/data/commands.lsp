-> {"jsonrpc":"2.0","id":0,"method":"initialize","params":{"processId":null,"rootUri":null,"capabilities":{"textDocument":{"hover":{"dynamicRegistration":true},"semanticTokens":{"dynamicRegistration":true,"requests":{"full":true},"tokenTypes":[],"tokenModifiers":[],"formats":["relative"]}},"workspace":{"executeCommand":{"dynamicRegistration":true}},"notebookDocument":{"synchronization":{}}}}}
<- {"jsonrpc":"2.0","id":0,"result":{"capabilities":{"executeCommandProvider":{"commands":["a"]}}}}
-> {"jsonrpc":"2.0","method":"initialized","params":{}}
<- {"jsonrpc":"2.0","id":2,"method":"client/registerCapability","params":{"registrations":[{"id":"r","method":"workspace/executeCommand","registerOptions":{"commands":["b"]}}]}}
-> {"jsonrpc":"2.0","id":2,"result":null}
-> {"jsonrpc":"2.0","id":1,"method":"workspace/executeCommand","params":{"command":"a"}}
<- {"jsonrpc":"2.0","id":1,"result":null}
-> {"jsonrpc":"2.0","id":1,"method":"workspace/executeCommand","params":{"command":"b"}}
<- {"jsonrpc":"2.0","id":1,"result":null}
-> {"jsonrpc":"2.0","id":1,"method":"workspace/executeCommand","params":{"command":"c"}}
<- {"jsonrpc":"2.0","id":1,"error":{"code":-32601,"message":"no such method"}}
-> {"jsonrpc":"2.0","id":1,"method":"workspace/executeCommand","params":{"command":"a"}}
<- {"jsonrpc":"2.0","id":1,"error":{"code":-32601,"message":"no such method"}}
-> {"jsonrpc":"2.0","id":1,"method":"workspace/executeCommand","params":{"command":"b"}}
<- {"jsonrpc":"2.0","id":1,"error":{"code":-32601,"message":"no such method"}}
-> {"jsonrpc":"2.0","id":9,"method":"shutdown"}
<- {"jsonrpc":"2.0","id":9,"result":null}
-> {"jsonrpc":"2.0","method":"exit"}
