-- Leaves Neovim by `:qall!` at a moment of a session, as its user may. The server has to end, and in status 0 if Neovim sent `shutdown` and
-- `exit`.
--   LSP_SERVER="editors/tap.py FILE program argument .." nvim --headless -u NONE -i NONE -S editors/neovim/quits.lua
-- FILE.1.status tells the status. MOMENT is `begin` (at once), `initialized`, `settings` (while the server asks for them), `open` (with a
-- change that is not told yet) or `asked` (while requests wait); without it Neovim starts itself for each of them.
local moments = { 'begin', 'initialized', 'settings', 'open', 'asked' }
local moment = vim.env.MOMENT
local words = vim.split(vim.env.LSP_SERVER or 'crates/example_toml/out/example_toml', ' ')
vim.o.swapfile = false

-- What came of leaving at a moment, and whether that is right.
local function left_at(each)
  local command = vim.deepcopy(words)
  command[2] = command[2] .. '.' .. each
  local server = 'LSP_SERVER=' .. table.concat(command, ' ')
  vim.fn.system({ 'env', 'MOMENT=' .. each, server, vim.v.progpath, '--headless', '-u', 'NONE', '-i', 'NONE', '-S', 'editors/neovim/quits.lua' })
  local status, passed = command[2] .. '.1.status', command[2] .. '.1.lsp'
  if vim.fn.filereadable(passed) == 0 then return 'no server was started', each == 'begin' end
  vim.wait(5000, function() return vim.fn.filereadable(status) == 1 end, 20)
  local ended = vim.fn.filereadable(status) == 1 and vim.fn.readfile(status)[1] or 'none'
  local text = table.concat(vim.fn.readfile(passed), '\n')
  local in_order = text:find('"method":"shutdown"', 1, true) and text:find('"method":"exit"', 1, true)
  return string.format('status %s, %s', ended, in_order and 'in order' or 'without shutdown or exit'), ended == (in_order and '0' or '1')
end

if not moment then
  local good = true
  for _, each in ipairs(moments) do
    local what, right = left_at(each)
    io.stdout:write(each, ': ', what, '\n')
    good = good and right
  end
  io.stdout:write(good and 'as it should be\n' or 'NOT as it should be\n')
  vim.cmd(good and 'qall!' or 'cquit 1')
end

local leaves = false
local function leave()
  leaves = true
  vim.cmd('qall!')
end

vim.api.nvim_buf_set_name(0, vim.fn.tempname() .. '.toml')
vim.api.nvim_buf_set_lines(0, 0, -1, false, { '# one', '"größe" = 3', 'b = pear' })
local handlers = {}
if moment == 'settings' then
  handlers['workspace/configuration'] = function(fault, params, context, config)
    vim.schedule(leave)
    return vim.lsp.handlers['workspace/configuration'](fault, params, context, config)
  end
end
local lines = {}
for number = 1, 1000 do lines[number] = 'key_' .. number .. ' = 1\n' end
local long = table.concat(lines)
local client
vim.lsp.start_client({
  name = 'toml',
  cmd = words,
  settings = { toml = { version = '1.1' } },
  handlers = handlers,
  flags = { exit_timeout = 1000 },
  exit_timeout = 1000, -- so from 0.12 on
  on_init = function(begun) client = begun end,
})
if moment == 'begin' then leave() end
if not vim.wait(5000, function() return client end, 1) then vim.cmd('cquit 1') end
if moment == 'initialized' then leave() end
vim.lsp.buf_attach_client(0, client.id)
vim.wait(moment == 'settings' and 3000 or 200)
if leaves then return end
if moment == 'open' then
  vim.api.nvim_buf_set_lines(0, 0, 0, false, { '# 😀' })
elseif moment == 'asked' then
  client.notify('textDocument/didOpen', {
    textDocument = { uri = 'file:///long.toml', languageId = 'toml', version = 1, text = long },
  })
  for _ = 1, 2 do client.request('workspace/symbol', { query = 'key_' }, function() end) end
end
leave()
