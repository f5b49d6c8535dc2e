# recorded on a Sunday

by hand
hello
-> {"jsonrpc":"2.0","id":0,"method":"initialize","params":{"processId":null,"rootUri":null,"capabilities":{"window":{"workDoneProgress":true},"workspace":{"inlayHint":{"refreshSupport":true}}}}}
<- {"jsonrpc":"2.0","id":0,"result":{"capabilities":{"hoverProvider":true}}}
-> {"jsonrpc":"2.0","method":"initialized","params":{}}
-> {"jsonrpc":"2.0","id":1,"method":"textDocument/hover","params":{"textDocument":{"uri":"file:///a"},"position":{"line":0,"character":0}}}
-> {"jsonrpc":"2.0","id":9,"method":"shutdown"}
<- {"jsonrpc":"2.0","id":9,"result":null}
-> {"jsonrpc":"2.0","method":"exit"}
