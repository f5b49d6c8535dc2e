" Starts a server through Vim's own LSP channel, sends it requests, prints the replies, and ends the session.
"   vim -u NONE -i NONE -N -es -S editors/vim/session.vim | cat
" LSP_SERVER="program argument .." names another server than `crates/lsp_demo/out/lsp_demo serve`. LSP_ADDRESS=127.0.0.1:9257
" starts `crates/lsp_demo/out/lsp_demo tcp` at that address, and speaks to it through a socket.
set encoding=utf-8
scriptencoding utf-8

let s:place = empty($LSP_ADDRESS) ? 'serve' : 'tcp ' .. $LSP_ADDRESS
let s:server = empty($LSP_SERVER) ? 'crates/lsp_demo/out/lsp_demo ' .. s:place : $LSP_SERVER
let s:patience = 10000
let s:ended = []
let s:options = #{in_mode: 'lsp', out_mode: 'lsp', err_mode: 'nl', exit_cb: {_, status -> add(s:ended, status)}}
let s:job = job_start(split(s:server), s:options)
if empty($LSP_ADDRESS)
  let s:channel = job_getchannel(s:job)
else
  let s:channel = ch_open($LSP_ADDRESS, #{mode: 'lsp', waittime: s:patience})
endif

func s:Say(text)
  call writefile([a:text], '/dev/stdout', 'a')
endfunc

func s:Ask(method, params)
  let reply = ch_evalexpr(s:channel, #{method: a:method, params: a:params}, #{timeout: s:patience})
  let outcome = type(reply) != v:t_dict ? 'no reply' : get(reply, 'error', get(reply, 'result'))
  call s:Say(a:method .. ': ' .. string(outcome))
  return outcome
endfunc

func s:Tell(method)
  call ch_sendexpr(s:channel, #{method: a:method, params: {}})
endfunc

call s:Ask('initialize', #{processId: getpid(), rootUri: v:null, capabilities: {}})
call s:Tell('initialized')
let s:params = #{text: 'größe 日本', list: [1, [2, 'three']]}
let s:echoed = s:Ask('demo/echo', s:params)
let s:unknown = s:Ask('textDocument/hover', #{position: #{line: 0, character: 0}})
call s:Ask('shutdown', {})
call s:Tell('exit')

let s:turns = s:patience / 10
while empty(s:ended) && s:turns > 0
  sleep 10m
  let s:turns -= 1
endwhile
call s:Say('ended with status ' .. get(s:ended, 0, 'none: it still runs'))

let s:error = #{code: -32601, message: 'method not found'}
if s:echoed == s:params && s:unknown == s:error && s:ended == [0]
  call s:Say('as it should be')
  qall!
endif
call s:Say('NOT as it should be')
cquit 1
