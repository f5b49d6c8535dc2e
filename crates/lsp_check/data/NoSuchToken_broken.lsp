-> {"jsonrpc":"2.0","id":0,"method":"initialize","params":{"processId":null,"rootUri":null,"capabilities":{"window":{"workDoneProgress":true},"workspace":{"inlayHint":{"refreshSupport":true}}}}}
<- {"jsonrpc":"2.0","id":0,"result":{"capabilities":{"hoverProvider":true}}}
-> {"jsonrpc":"2.0","method":"initialized","params":{}}
<- {"jsonrpc":"2.0","id":1,"method":"window/workDoneProgress/create","params":{"token":"t"}}
-> {"jsonrpc":"2.0","id":1,"error":{"code":-32803,"message":"the project is not ready"}}
<- {"jsonrpc":"2.0","method":"$/progress","params":{"token":"t","value":{"kind":"begin","title":"work"}}}
<- {"jsonrpc":"2.0","method":"$/progress","params":{"token":"t","value":{"kind":"end"}}}
-> {"jsonrpc":"2.0","id":9,"method":"shutdown"}
<- {"jsonrpc":"2.0","id":9,"result":null}
-> {"jsonrpc":"2.0","method":"exit"}
