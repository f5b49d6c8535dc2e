-> {"jsonrpc":"2.0","id":0,"method":"initialize"}
<- {"jsonrpc":"2.0","id":0,"result":null}
-> {"jsonrpc":"2.0","method":"initialized"}
-> {"jsonrpc":"2.0","method":"textDocument/didOpen","params":{"textDocument":{"uri":"file:///project/py/main.py","version":1}}}
<- {"jsonrpc":"2.0","method":"textDocument/publishDiagnostics"}
-> {"jsonrpc":"2.0","id":1,"method":"textDocument/hover","params":{"textDocument":{"uri":"file:///project/py/main.py"}}}
-> {"jsonrpc": "2.0", "method": "$/progress", "params": {"token": 1, "value": {"kind": "end"}}}
<- {"jsonrpc":"2.0","id":1,"result":null}
-> {"jsonrpc":"2.0","id":2,"method":"textDocument/definition","params":{"textDocument":{"uri":"file:///project/py/main.py"}}}
<- {"jsonrpc":"2.0","id":2,"result":null}
-> {"jsonrpc":"2.0","id":3,"method":"textDocument/declaration","params":{"textDocument":{"uri":"file:///project/py/main.py"}}}
<- {"jsonrpc":"2.0","id":3,"error":{"code":-32601,"message":"Method Not Found: textDocument/declaration"}}
-> {"jsonrpc":"2.0","id":8,"method":"textDocument/signatureHelp","params":{"textDocument":{"uri":"file:///project/py/main.py"}}}
<- {"jsonrpc":"2.0","id":8,"result":null}
-> {"jsonrpc":"2.0","id":27,"method":"textDocument/rename","params":{"textDocument":{"uri":"file:///project/py/main.py"}}}
<- {"jsonrpc":"2.0","id":27,"result":null}
-> {"jsonrpc":"2.0","method":"textDocument/didChange","params":{"textDocument":{"uri":"file:///project/py/main.py","version":2}}}
-> {"jsonrpc":"2.0","method":"textDocument/didChange","params":{"textDocument":{"uri":"file:///project/py/main.py","version":4}}}
-> {"jsonrpc":"2.0","method":"textDocument/didChange","params":{"textDocument":{"uri":"file:///project/py/main.py","version":8}}}
<- {"jsonrpc": "2.0", "method": "$/progress", "params": {"token": 2, "value": {"kind": "begin"}}}
-> {"jsonrpc":"2.0","method":"textDocument/didChange","params":{"textDocument":{"uri":"file:///project/py/main.py","version":9}}}
-> {"jsonrpc":"2.0","method":"textDocument/didChange","params":{"textDocument":{"uri":"file:///project/py/main.py","version":10}}}
-> {"jsonrpc":"2.0","method":"textDocument/didChange","params":{"textDocument":{"uri":"file:///project/py/main.py","version":11}}}
-> {"jsonrpc":"2.0","method":"textDocument/didChange","params":{"textDocument":{"uri":"file:///project/py/main.py","version":13}}}
-> {"jsonrpc":"2.0","method":"textDocument/didChange","params":{"textDocument":{"uri":"file:///project/py/main.py","version":16}}}
-> {"jsonrpc":"2.0","method":"textDocument/didChange","params":{"textDocument":{"uri":"file:///project/py/main.py","version":18}}}
-> {"jsonrpc":"2.0","method":"textDocument/didChange","params":{"textDocument":{"uri":"file:///project/py/main.py","version":20}}}
-> {"jsonrpc":"2.0","method":"textDocument/didChange","params":{"textDocument":{"uri":"file:///project/py/main.py","version":26}}}
-> {"jsonrpc":"2.0","method":"textDocument/didChange","params":{"textDocument":{"uri":"file:///project/py/main.py","version":29}}}
-> {"jsonrpc":"2.0","method":"textDocument/didChange","params":{"textDocument":{"uri":"file:///project/py/main.py","version":30}}}
-> {"jsonrpc":"2.0","method":"textDocument/didChange","params":{"textDocument":{"uri":"file:///project/py/main.py","version":31}}}
-> {"jsonrpc":"2.0","method":"textDocument/didChange","params":{"textDocument":{"uri":"file:///project/py/main.py","version":32}}}
-> {"jsonrpc":"2.0","method":"textDocument/didChange","params":{"textDocument":{"uri":"file:///project/py/main.py","version":33}}}
-> {"jsonrpc":"2.0","method":"textDocument/didChange","params":{"textDocument":{"uri":"file:///project/py/main.py","version":35}}}
-> {"jsonrpc":"2.0","method":"textDocument/didChange","params":{"textDocument":{"uri":"file:///project/py/main.py","version":37}}}
-> {"jsonrpc":"2.0","id":37,"method":"shutdown"}
<- {"jsonrpc":"2.0","id":37,"error":{"code":-32602,"message":"TypeError: pylsp.python_lsp.PythonLSPServer.m_shutdown() argument after ** must be a mapping, not list","data":{"traceback":["  File \"/python/pylsp_jsonrpc/endpoint.py\", line 117, in consume\n    self._handle_request(message['id'], message['method'], message.get('params'))\n    ~~~~~~~~~~~~~~~~~~~~^^^^^^^^^^^^^^^^^^^^^^^^^^^^^^^^^^^^^^^^^^^^^^^^^^^^^^^^^\n","  File \"/python/pylsp_jsonrpc/endpoint.py\", line 197, in _handle_request\n    handler_result = handler(params)\n","  File \"/python/pylsp_jsonrpc/dispatchers.py\", line 25, in handler\n    return method(**(params or {}))\n"]}}}
-> {"jsonrpc":"2.0","method":"exit"}
