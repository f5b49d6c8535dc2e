-> {"id":1,"jsonrpc":"2.0","method":"initialize","params":{"capabilities":{"textDocument":{"codeAction":{"codeActionLiteralSupport":{"codeActionKind":{"valueSet":["quickfix","refactor","source"]}}},"completion":{"completionItem":{"resolveSupport":{"properties":["additionalTextEdits","documentation"]},"snippetSupport":true}},"documentSymbol":{"hierarchicalDocumentSymbolSupport":true},"hover":{"contentFormat":["markdown","plaintext"]},"inlayHint":{"dynamicRegistration":false},"publishDiagnostics":{"relatedInformation":true},"selectionRange":{"dynamicRegistration":false},"semanticTokens":{"formats":["relative"],"requests":{"full":{"delta":true},"range":true},"tokenModifiers":[],"tokenTypes":["namespace","type","class","enum","interface","struct","typeParameter","parameter","variable","property","enumMember","event","function","method","macro","keyword","modifier","comment","string","number","regexp","operator"]},"synchronization":{"didSave":true}},"window":{"showMessage":{"messageActionItem":{"additionalPropertiesSupport":true}},"workDoneProgress":true},"workspace":{"workspaceFolders":true}},"processId":1,"rootPath":"/project","rootUri":"file:///project","workspaceFolders":[]}}
<- {"jsonrpc":"2.0","id":1,"result":{"capabilities":{"hoverProvider":true,"positionEncoding":"utf-16","textDocumentSync":{"change":2,"openClose":true,"save":{"includeText":true}},"workspaceSymbolProvider":{"workDoneProgress":true}},"serverInfo":{"name":"sums"}}}
-> {"jsonrpc":"2.0","method":"initialized","params":{}}
-> {"jsonrpc":"2.0","method":"workspace/didChangeConfiguration","params":{"settings":{"sums":{"largest":20}}}}
-> {"jsonrpc":"2.0","method":"textDocument/didOpen","params":{"textDocument":{"languageId":"sums","text":"# prices\napple = 3\ntotal = apple + 4 - nope\n","uri":"file:///project/a.sums","version":2}}}
<- {"jsonrpc":"2.0","method":"textDocument/publishDiagnostics","params":{"diagnostics":[{"message":"`nope`: has no value","range":{"end":{"character":24,"line":2},"start":{"character":20,"line":2}},"severity":1,"source":"sums"}],"uri":"file:///project/a.sums"}}
-> {"id":2,"jsonrpc":"2.0","method":"textDocument/documentHighlight","params":{"position":{"character":0,"line":0},"textDocument":{"uri":"file:///project/a.sums"}}}
<- {"jsonrpc":"2.0","id":2,"error":{"code":-32601,"message":"method not found"}}
-> {"id":3,"jsonrpc":"2.0","method":"textDocument/documentHighlight","params":{"position":{"character":0,"line":0},"textDocument":{"uri":"file:///project/a.sums"}}}
<- {"jsonrpc":"2.0","id":3,"error":{"code":-32601,"message":"method not found"}}
-> {"id":4,"jsonrpc":"2.0","method":"workspace/symbol","params":{"query":"pr"}}
<- {"jsonrpc":"2.0","id":4,"result":[{"kind":15,"location":{"range":{"end":{"character":0,"line":0},"start":{"character":0,"line":0}},"uri":"file:///project/a.sums"},"name":"prices"}]}
-> {"id":5,"jsonrpc":"2.0","method":"workspace/symbol","params":{"query":"pri"}}
<- {"jsonrpc":"2.0","id":5,"result":[{"kind":15,"location":{"range":{"end":{"character":0,"line":0},"start":{"character":0,"line":0}},"uri":"file:///project/a.sums"},"name":"prices"}]}
-> {"id":6,"jsonrpc":"2.0","method":"workspace/symbol","params":{"query":"pric"}}
<- {"jsonrpc":"2.0","id":6,"result":[{"kind":15,"location":{"range":{"end":{"character":0,"line":0},"start":{"character":0,"line":0}},"uri":"file:///project/a.sums"},"name":"prices"}]}
-> {"id":7,"jsonrpc":"2.0","method":"workspace/symbol","params":{"query":"price"}}
<- {"jsonrpc":"2.0","id":7,"result":[{"kind":15,"location":{"range":{"end":{"character":0,"line":0},"start":{"character":0,"line":0}},"uri":"file:///project/a.sums"},"name":"prices"}]}
-> {"id":8,"jsonrpc":"2.0","method":"workspace/symbol","params":{"query":"prices"}}
<- {"jsonrpc":"2.0","id":8,"result":[{"kind":15,"location":{"range":{"end":{"character":0,"line":0},"start":{"character":0,"line":0}},"uri":"file:///project/a.sums"},"name":"prices"}]}
-> {"id":9,"jsonrpc":"2.0","method":"textDocument/documentHighlight","params":{"position":{"character":0,"line":3},"textDocument":{"uri":"file:///project/a.sums"}}}
<- {"jsonrpc":"2.0","id":9,"error":{"code":-32601,"message":"method not found"}}
-> {"id":10,"jsonrpc":"2.0","method":"textDocument/documentHighlight","params":{"position":{"character":24,"line":2},"textDocument":{"uri":"file:///project/a.sums"}}}
<- {"jsonrpc":"2.0","id":10,"error":{"code":-32601,"message":"method not found"}}
-> {"jsonrpc":"2.0","method":"textDocument/didSave","params":{"text":"# prices\napple = 3\ntotal = apple + 4 - nope","textDocument":{"uri":"file:///project/a.sums"}}}
<- {"jsonrpc":"2.0","method":"window/logMessage","params":{"message":"file:///project/a.sums: the saved text is another one","type":2}}
<- {"jsonrpc":"2.0","method":"textDocument/publishDiagnostics","params":{"diagnostics":[{"message":"`nope`: has no value","range":{"end":{"character":24,"line":2},"start":{"character":20,"line":2}},"severity":1,"source":"sums"}],"uri":"file:///project/a.sums"}}
-> {"jsonrpc":"2.0","method":"textDocument/didChange","params":{"contentChanges":[{"range":{"end":{"character":0,"line":4},"start":{"character":0,"line":2}},"text":"total = apple + 4 - nope\n"}],"textDocument":{"uri":"file:///project/a.sums","version":3}}}
<- {"jsonrpc":"2.0","method":"textDocument/publishDiagnostics","params":{"diagnostics":[{"message":"`nope`: has no value","range":{"end":{"character":24,"line":2},"start":{"character":20,"line":2}},"severity":1,"source":"sums"}],"uri":"file:///project/a.sums"}}
-> {"jsonrpc":"2.0","method":"textDocument/didClose","params":{"textDocument":{"uri":"file:///project/a.sums"}}}
-> {"jsonrpc":"2.0","method":"textDocument/didOpen","params":{"textDocument":{"languageId":"sums","text":"","uri":"file:///project/a.sums","version":4}}}
-> {"jsonrpc":"2.0","method":"textDocument/didClose","params":{"textDocument":{"uri":"file:///project/a.sums"}}}
-> {"jsonrpc":"2.0","method":"textDocument/didOpen","params":{"textDocument":{"languageId":"sums","text":"","uri":"file:///project/a.sums","version":4}}}
-> {"jsonrpc":"2.0","method":"textDocument/didChange","params":{"contentChanges":[{"text":"# other\nb = 2\nc = nope\n"}],"textDocument":{"uri":"file:///project/a.sums","version":5}}}
<- {"jsonrpc":"2.0","method":"textDocument/publishDiagnostics","params":{"diagnostics":[],"uri":"file:///project/a.sums"}}
<- {"jsonrpc":"2.0","method":"textDocument/publishDiagnostics","params":{"diagnostics":[],"uri":"file:///project/a.sums"}}
<- {"jsonrpc":"2.0","method":"textDocument/publishDiagnostics","params":{"diagnostics":[],"uri":"file:///project/a.sums"}}
<- {"jsonrpc":"2.0","method":"textDocument/publishDiagnostics","params":{"diagnostics":[],"uri":"file:///project/a.sums"}}
<- {"jsonrpc":"2.0","method":"textDocument/publishDiagnostics","params":{"diagnostics":[{"message":"`nope`: has no value","range":{"end":{"character":8,"line":2},"start":{"character":4,"line":2}},"severity":1,"source":"sums"}],"uri":"file:///project/a.sums"}}
-> {"id":11,"jsonrpc":"2.0","method":"textDocument/documentHighlight","params":{"position":{"character":8,"line":2},"textDocument":{"uri":"file:///project/a.sums"}}}
<- {"jsonrpc":"2.0","id":11,"error":{"code":-32601,"message":"method not found"}}
-> {"jsonrpc":"2.0","method":"textDocument/didSave","params":{"text":"# other\nb = 2\nc = nope\n","textDocument":{"uri":"file:///project/a.sums"}}}
<- {"jsonrpc":"2.0","method":"textDocument/publishDiagnostics","params":{"diagnostics":[{"message":"`nope`: has no value","range":{"end":{"character":8,"line":2},"start":{"character":4,"line":2}},"severity":1,"source":"sums"}],"uri":"file:///project/a.sums"}}
