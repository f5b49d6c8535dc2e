-> {"jsonrpc":"2.0","id":0,"method":"initialize"}
<- {"jsonrpc":"2.0","id":0,"result":null}
-> {"jsonrpc":"2.0","method":"initialized"}
-> {"jsonrpc":"2.0","method":"textDocument/didOpen","params":{"textDocument":{"uri":"file:///project/py/main.py","version":1}}}
-> {"jsonrpc":"2.0","id":1,"method":"textDocument/hover","params":{"textDocument":{"uri":"file:///project/py/main.py"},"partialResultToken":"1"}}
<- {"jsonrpc":"2.0","id":1,"result":null}
-> {"jsonrpc":"2.0","id":3,"method":"textDocument/declaration","params":{"textDocument":{"uri":"file:///project/py/main.py"}}}
<- {"jsonrpc":"2.0","id":3,"error":{"code":-32601,"message":"Method Not Found: textDocument/declaration"}}
-> {"jsonrpc":"2.0","id":8,"method":"textDocument/signatureHelp","params":{"textDocument":{"uri":"file:///project/py/main.py"},"partialResultToken":1}}
<- {"jsonrpc":"2.0","id":8,"result":null}
-> {"jsonrpc":"2.0","id":20,"method":"textDocument/semanticTokens/full","params":{"textDocument":{"uri":"file:///project/py/main.py"}}}
<- {"jsonrpc":"2.0","id":20,"error":{"code":-32601,"message":"Method Not Found: textDocument/semanticTokens/full"}}
-> {"jsonrpc":"2.0","id":24,"method":"textDocument/selectionRange","params":{"textDocument":{"uri":"file:///project/py/main.py"}}}
<- {"jsonrpc":"2.0","id":24,"error":{"code":-32601,"message":"Method Not Found: textDocument/selectionRange"}}
-> {"jsonrpc":"2.0","id":28,"method":"workspace/symbol","params":{"workDoneToken":"work","partialResultToken":"part"}}
<- {"jsonrpc":"2.0","id":28,"error":{"code":-32601,"message":"Method Not Found: workspace/symbol"}}
-> {"jsonrpc":"2.0","method":"textDocument/didChange","params":{"textDocument":{"uri":"file:///project/py/main.py","version":5}}}
-> {"jsonrpc":"2.0","method":"textDocument/didChange","params":{"textDocument":{"uri":"file:///project/py/main.py","version":7}}}
-> {"jsonrpc":"2.0","method":"textDocument/didChange","params":{"textDocument":{"uri":"file:///project/py/main.py","version":9}}}
-> {"jsonrpc":"2.0","method":"textDocument/didChange","params":{"textDocument":{"uri":"file:///project/py/main.py","version":10}}}
-> {"jsonrpc":"2.0","id":-0,"error":{"code":1}}
<- {"jsonrpc":"2.0","id":null,"error":"no"}
<- {"jsonrpc":"2.0","id":[],"error":{"code":1}}
-> {"jsonrpc":"2.0","id":3000000000,"error":null}
-> {"jsonrpc":"2.0","method":"textDocument/didChange","params":{"textDocument":{"uri":"file:///project/py/main.py","version":12}}}
-> {"jsonrpc":"2.0","method":"textDocument/didChange","params":{"textDocument":{"uri":"file:///project/py/main.py","version":13}}}
-> {"jsonrpc":"2.0","method":"textDocument/didChange","params":{"textDocument":{"uri":"file:///project/py/main.py","version":15}}}
-> {"jsonrpc":"2.0","method":"textDocument/didChange","params":{"textDocument":{"uri":"file:///project/py/main.py","version":16}}}
-> {"jsonrpc":"2.0","method":"textDocument/didChange","params":{"textDocument":{"uri":"file:///project/py/main.py","version":18}}}
-> {"jsonrpc":"2.0","method":"textDocument/didChange","params":{"textDocument":{"uri":"file:///project/py/main.py","version":19}}}
-> {"jsonrpc":"2.0","method":"textDocument/didChange","params":{"textDocument":{"uri":"file:///project/py/main.py","version":21}}}
-> {"jsonrpc":"2.0","method":"textDocument/didChange","params":{"textDocument":{"uri":"file:///project/py/main.py","version":22}}}
-> {"jsonrpc":"2.0","method":"textDocument/didChange","params":{"textDocument":{"uri":"file:///project/py/main.py","version":23}}}
-> {"jsonrpc":"2.0","method":"textDocument/didChange","params":{"textDocument":{"uri":"file:///project/py/main.py","version":24}}}
-> {"jsonrpc":"2.0","method":"textDocument/didChange","params":{"textDocument":{"uri":"file:///project/py/main.py","version":25}}}
-> {"jsonrpc":"2.0","method":"textDocument/didChange","params":{"textDocument":{"uri":"file:///project/py/main.py","version":29}}}
-> {"jsonrpc":"2.0","method":"$/cancelRequest"}
-> {"jsonrpc":"2.0","method":"textDocument/didChange","params":{"textDocument":{"uri":"file:///project/py/main.py","version":31}}}
-> {"jsonrpc":"2.0","method":"textDocument/didChange","params":{"textDocument":{"uri":"file:///project/py/main.py","version":33}}}
-> {"jsonrpc":"2.0","method":"textDocument/didChange","params":{"textDocument":{"uri":"file:///project/py/main.py","version":34}}}
-> {"jsonrpc":"2.0","method":"textDocument/didChange","params":{"textDocument":{"uri":"file:///project/py/main.py","version":35}}}
-> {"jsonrpc":"2.0","method":"textDocument/didChange","params":{"textDocument":{"uri":"file:///project/py/main.py","version":36}}}
-> {"jsonrpc":"2.0","method":"textDocument/didChange","params":{"textDocument":{"uri":"file:///project/py/main.py","version":37}}}
-> {"jsonrpc":"2.0","method":"textDocument/didClose","params":{"textDocument":{"uri":"file:///project/py/main.py"}}}
-> {"jsonrpc":"2.0","id":37,"method":"shutdown","params":{"partialResultToken":"1"}}
<- {"jsonrpc":"2.0","id":37,"error":{"code":-32602,"message":"TypeError: pylsp.python_lsp.PythonLSPServer.m_shutdown() argument after ** must be a mapping, not list","data":{"traceback":["  File \"/python/pylsp_jsonrpc/endpoint.py\", line 117, in consume\n    self._handle_request(message['id'], message['method'], message.get('params'))\n    ~~~~~~~~~~~~~~~~~~~~^^^^^^^^^^^^^^^^^^^^^^^^^^^^^^^^^^^^^^^^^^^^^^^^^^^^^^^^^\n","  File \"/python/pylsp_jsonrpc/endpoint.py\", line 197, in _handle_request\n    handler_result = handler(params)\n","  File \"/python/pylsp_jsonrpc/dispatchers.py\", line 25, in handler\n    return method(**(params or {}))\n"]}}}
-> {"jsonrpc":"2.0","method":"exit"}
