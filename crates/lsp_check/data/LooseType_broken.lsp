-> {"jsonrpc":"2.0","id":0,"method":"initialize","params":{"processId":null,"rootUri":null,"capabilities":{"window":{"workDoneProgress":true},"workspace":{"inlayHint":{"refreshSupport":true}}}}}
<- {"jsonrpc":"2.0","id":0,"result":{"capabilities":{"documentSymbolProvider":true}}}
-> {"jsonrpc":"2.0","method":"initialized","params":{}}
-> {"jsonrpc":"2.0","id":1,"method":"textDocument/documentSymbol","params":{"textDocument":{"uri":"file:///a"}}}
<- {"jsonrpc":"2.0","id":1,"result":[{"name":"a","kind":27,"tags":[1],"range":{"start":{"line":0,"character":0},"end":{"line":0,"character":4}},"selectionRange":{"start":{"line":0,"character":1},"end":{"line":0,"character":4}}}]}
-> {"jsonrpc":"2.0","id":9,"method":"shutdown"}
<- {"jsonrpc":"2.0","id":9,"result":null}
-> {"jsonrpc":"2.0","method":"exit"}
