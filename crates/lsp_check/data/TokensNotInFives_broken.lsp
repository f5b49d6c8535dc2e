-> {"jsonrpc":"2.0","id":0,"method":"initialize","params":{"processId":null,"rootUri":null,"capabilities":{"window":{"workDoneProgress":true},"workspace":{"inlayHint":{"refreshSupport":true}}}}}
<- {"jsonrpc":"2.0","id":0,"result":{"capabilities":{"semanticTokensProvider":{"legend":{"tokenTypes":["a"],"tokenModifiers":[]},"full":true}}}}
-> {"jsonrpc":"2.0","method":"initialized","params":{}}
-> {"jsonrpc":"2.0","id":1,"method":"textDocument/semanticTokens/full","params":{"textDocument":{"uri":"file:///a"}}}
<- {"jsonrpc":"2.0","id":1,"result":{"data":[0,0,1,0]}}
-> {"jsonrpc":"2.0","id":9,"method":"shutdown"}
<- {"jsonrpc":"2.0","id":9,"result":null}
-> {"jsonrpc":"2.0","method":"exit"}
