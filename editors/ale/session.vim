" Vim with ALE holds a session: marks, a hover, an emoji, quick edits, a file with \r\n, a search. ALE kills its server at the end.
set nocompatible hidden nobackup noswapfile encoding=utf-8 fileencodings=utf-8
set rtp+=/usr/share/vim-ale
let g:ale_linters_explicit = 1
let g:ale_lint_on_text_changed = 'always'
let g:ale_lint_delay = 50
filetype on
runtime plugin/ale.vim
call ale#linter#Define('toml', {
\ 'name': 'toml', 'lsp': 'stdio', 'executable': '/bin/sh', 'command': $LSP_SERVER,
\ 'project_root': {buffer -> $HOME}, 'lsp_config': {'toml': {'version': '1.1'}}, 'language': 'toml' })
let g:ale_linters = {'toml': ['toml']}

func! Marks()
  return map(copy(ale#engine#GetLoclist(bufnr('%'))), {_, mark -> mark.lnum . ':' . mark.col})
endfunc

func! WaitFor(what, came)
  for tries in range(400)
    if a:came() | return | endif
    sleep 25m
  endfor
  verbose echo 'NO ' . a:what
  cquit
endfunc

exe 'cd ' . $HOME
call writefile(['# prices', 'apple = 3', 'total = { apple = 3, }', 'pear = nope'], 'a.toml')
call writefile(["x = 1\r", "y = nope\r"], 'dos.toml')
edit a.toml
call ale#Queue(0, 'lint_file')
call WaitFor('a mark, and the setting allows the other', {-> Marks() ==# ['4:8']})
call setline(2, '"😀é" = apple')
doautocmd TextChanged
" (ALE's columns are UTF-16 units)
call WaitFor('a mark behind an emoji', {-> Marks() ==# ['2:9', '4:8']})
undo
doautocmd TextChanged
call WaitFor('the mark from before', {-> Marks() ==# ['4:8']})
write
for number in range(60)
  call append(line('$'), 'n' . number . ' = ' . (number < 20 ? number : 'nope'))
  doautocmd TextChanged
  sleep 10m
endfor
call WaitFor('marks of values that are none', {-> len(Marks()) == 41})
write
edit dos.toml
call ale#Queue(0, 'lint_file')
call WaitFor('marks of a file with returns', {-> len(Marks()) == 1})
call setline(1, 'x = zzz')
doautocmd TextChanged
call WaitFor('marks behind an edit of it', {-> len(Marks()) == 2})
write
qall!
