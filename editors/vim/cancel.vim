" Starts a server through Vim's own LSP channel, sends it two requests that it keeps, cancels the first and has the second
" answered, and counts the answers to each.
"   vim -u NONE -i NONE -N -es -S editors/vim/cancel.vim | cat
" LSP_SERVER="program argument .." names another server than `crates/lsp_demo/out/lsp_demo serve`.
set encoding=utf-8
scriptencoding utf-8

let s:server = empty($LSP_SERVER) ? 'crates/lsp_demo/out/lsp_demo serve' : $LSP_SERVER
let s:patience = 10000
let s:ended = []
let s:answers = #{first: [], second: []}
let s:options = #{in_mode: 'lsp', out_mode: 'lsp', err_mode: 'nl', exit_cb: {_, status -> add(s:ended, status)}}
let s:job = job_start(split(s:server), s:options)
let s:channel = job_getchannel(s:job)

func s:Say(text)
  call writefile([a:text], '/dev/stdout', 'a')
endfunc

func s:Ask(method, params)
  return ch_evalexpr(s:channel, #{method: a:method, params: a:params}, #{timeout: s:patience})
endfunc

func s:Tell(method, params)
  call ch_sendexpr(s:channel, #{method: a:method, params: a:params})
endfunc

func s:Show(name, reply)
  let outcome = get(a:reply, 'error', get(a:reply, 'result'))
  call add(s:answers[a:name], outcome)
  call s:Say(a:name .. ': ' .. string(outcome))
endfunc

" Sends a request whose answers are shown under a name, and gives its id.
func s:Hold(name)
  let options = #{callback: {_, reply -> s:Show(a:name, reply)}}
  return ch_sendexpr(s:channel, #{method: 'demo/hold', params: [a:name]}, options).id
endfunc

func s:Await(list)
  let turns = s:patience / 10
  while empty(a:list) && turns > 0
    sleep 10m
    let turns -= 1
  endwhile
endfunc

call s:Ask('initialize', #{processId: getpid(), rootUri: v:null, capabilities: {}})
call s:Tell('initialized', {})
let s:first = s:Hold('first')
call s:Hold('second')
call s:Tell('$/cancelRequest', #{id: s:first})
call s:Await(s:answers.first)
call s:Tell('$/cancelRequest', #{id: s:first})
call s:Tell('demo/release', {})
call s:Await(s:answers.second)
call s:Tell('demo/release', {})
sleep 500m
let s:counts = [len(s:answers.first), len(s:answers.second)]
call s:Say(printf('answers shown: %d to the cancelled request, %d to the other', s:counts[0], s:counts[1]))
call s:Ask('shutdown', {})
call s:Tell('exit', {})
call s:Await(s:ended)
call s:Say('ended with status ' .. get(s:ended, 0, 'none: it still runs'))

let s:cancelled = #{code: -32800, message: 'canceled by client'}
if s:answers == #{first: [s:cancelled], second: [['second']]} && s:ended == [0]
  call s:Say('as it should be')
  qall!
endif
call s:Say('NOT as it should be')
cquit 1
