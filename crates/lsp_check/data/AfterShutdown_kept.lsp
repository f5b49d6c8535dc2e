-> {"jsonrpc":"2.0","id":0,"method":"initialize","params":{"processId":null,"rootUri":null,"capabilities":{"window":{"workDoneProgress":true},"workspace":{"inlayHint":{"refreshSupport":true}}}}}
<- {"jsonrpc":"2.0","id":0,"result":{"capabilities":{"hoverProvider":true}}}
-> {"jsonrpc":"2.0","method":"initialized","params":{}}
-> {"jsonrpc":"2.0","method":"textDocument/didOpen","params":{"textDocument":{"uri":"file:///a","languageId":"a","version":1,"text":""}}}
-> {"jsonrpc":"2.0","method":"textDocument/didClose","params":{"textDocument":{"uri":"file:///a"}}}
-> {"jsonrpc":"2.0","id":9,"method":"shutdown"}
<- {"jsonrpc":"2.0","id":9,"result":null}
-> {"jsonrpc":"2.0","method":"exit"}
