-> {"jsonrpc":"2.0","id":0,"method":"initialize","params":{"processId":null,"rootUri":null,"capabilities":{"textDocument":{"hover":{"dynamicRegistration":true},"semanticTokens":{"dynamicRegistration":true,"requests":{"full":true},"tokenTypes":[],"tokenModifiers":[],"formats":["relative"]}},"workspace":{"executeCommand":{"dynamicRegistration":true}},"notebookDocument":{"synchronization":{}}}}}
<- {"jsonrpc":"2.0","id":0,"result":{"capabilities":{"semanticTokensProvider":{"documentSelector":null,"legend":{"tokenTypes":["a"],"tokenModifiers":[]},"range":true}}}}
-> {"jsonrpc":"2.0","method":"initialized","params":{}}
-> {"jsonrpc":"2.0","id":1,"method":"textDocument/semanticTokens/range","params":{"textDocument":{"uri":"file:///a"},"range":{"start":{"line":0,"character":0},"end":{"line":1,"character":0}}}}
<- {"jsonrpc":"2.0","id":1,"error":{"code":-32601,"message":"no such method"}}
-> {"jsonrpc":"2.0","id":9,"method":"shutdown"}
<- {"jsonrpc":"2.0","id":9,"result":null}
-> {"jsonrpc":"2.0","method":"exit"}
