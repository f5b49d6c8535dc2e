-- Opens each file `*.toml` below a folder in one session of Neovim, and compares what `example_toml` says of it with Python's tomllib: a file that
-- tomllib reads has no mark, and one that it refuses has one. Then the server's text has to be that of each buffer.
--   FILES=folder LSP_SERVER="program argument .." nvim --headless -u NONE -i NONE -S editors/neovim/files.lua
-- Files that are not in UTF-8 are left out, since Neovim would convert them. It sends no byte order mark. Ends in status 1 if something is otherwise.

local command = vim.split(vim.env.LSP_SERVER or 'crates/example_toml/out/example_toml', ' ')
local patience = 120000
local client, ended
local good = true

local function say(...)
  io.stdout:write(string.format(...), '\n')
end

-- Prints `valid` or `refused` and the name of each file.
local reader = [[
import sys, tomllib
from pathlib import Path
for file in sorted(Path(sys.argv[1]).rglob("*.toml")):
    try:
        text = file.read_bytes().decode("utf-8-sig")
        tomllib.loads(text)
        print("valid", file)
    except tomllib.TOMLDecodeError:
        print("refused", file)
    except (UnicodeDecodeError, RecursionError, OSError):
        pass
]]
local is_valid, files = {}, {}
for _, line in ipairs(vim.fn.systemlist({ 'python3', '-c', reader, vim.env.FILES })) do
  local said, name = line:match('^(%a+) (.*)$')
  table.insert(files, name)
  is_valid[name] = said == 'valid'
end

-- The last marks of each document.
local marks, marked = {}, 0
vim.lsp.start_client({
  name = 'toml',
  cmd = command,
  handlers = {
    ['textDocument/publishDiagnostics'] = function(_, params)
      marked = marked + (marks[params.uri] and 0 or 1)
      marks[params.uri] = params.diagnostics
    end,
  },
  on_init = function(begun) client = begun end,
  on_exit = function(status) ended = status end,
})
if #files == 0 or not vim.wait(patience, function() return client or ended end, 5) or ended then
  say('there is no file, or the server did not begin a session')
  vim.cmd('cquit 1')
end

vim.o.swapfile, vim.o.hidden, vim.o.fileencodings = false, true, 'ucs-bom,utf-8'
local begun = vim.fn.reltime()
local buffers = {}
for _, name in ipairs(files) do
  vim.cmd('silent edit ' .. vim.fn.fnameescape(name))
  buffers[name] = vim.api.nvim_get_current_buf()
  vim.lsp.buf_attach_client(0, client.id)
end
vim.wait(patience, function() return marked == #files end, 10)
local seconds = vim.fn.reltimefloat(vim.fn.reltime(begun))

local function text_of(buffer)
  local ending = vim.bo[buffer].fileformat == 'dos' and '\r\n' or '\n'
  local lines = table.concat(vim.api.nvim_buf_get_lines(buffer, 0, -1, true), ending)
  return lines .. (vim.bo[buffer].eol and ending or '')
end

local counts = { valid = 0, refused = 0, other = 0, texts = 0, bytes = 0 }
for _, name in ipairs(files) do
  local buffer = buffers[name]
  local uri, text = vim.uri_from_bufnr(buffer), text_of(buffer)
  local shown = marks[uri]
  counts.bytes = counts.bytes + #text
  counts[is_valid[name] and 'valid' or 'refused'] = counts[is_valid[name] and 'valid' or 'refused'] + 1
  if not shown or (#shown == 0) ~= is_valid[name] then
    counts.other = counts.other + 1
    say('%s: tomllib %s it, and the server says %s', name, is_valid[name] and 'reads' or 'refuses',
      shown and (shown[1] and shown[1].message or 'nothing') or 'no word')
  end
  local replies = client.request_sync('toml/text', { textDocument = { uri = uri } }, patience, buffer)
  counts.texts = counts.texts + (replies and replies.result == text and 1 or 0)
end
client.stop()
vim.wait(patience, function() return ended end, 5)
say('%d files of %d bytes in %.1f seconds: %d valid, %d refused, %d marked otherwise, %d texts right, status %s', #files, counts.bytes, seconds,
  counts.valid, counts.refused, counts.other, counts.texts, ended)
good = counts.other == 0 and counts.texts == #files and ended == 0
say(good and 'as it should be' or 'NOT as it should be')
vim.cmd(good and 'qall!' or 'cquit 1')
