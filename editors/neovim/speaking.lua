-- Starts `example_toml` as the language client of Neovim does, opens a text, and looks at what the server says of it:
-- diagnostics follow the text and the configuration, a hover is answered, and a request that takes long is cancelled.
--   LSP_SERVER="program argument .." nvim --headless -u NONE -i NONE -S editors/neovim/speaking.lua
-- Without LSP_SERVER it is `crates/example_toml/out/example_toml`. Ends in status 1 where it is otherwise.

local command = vim.split(vim.env.LSP_SERVER or 'crates/example_toml/out/example_toml', ' ')
-- Without one of these arguments a pool searches, and a search can be cancelled. With them it may be answered first.
local pooled = not vim.tbl_contains(command, 'inline') and not vim.tbl_contains(command, 'threads')
local patience = 60000
local client, ended
local good = true

local function say(...)
  io.stdout:write(string.format(...), '\n')
end

local function note(what, holds)
  good = good and holds
  say('%s: %s', what, holds and 'yes' or 'NO')
end

local function wait_for(what, holds)
  note(what, (vim.wait(patience, holds, 5)))
end

local names = { [vim.diagnostic.severity.ERROR] = 'error', [vim.diagnostic.severity.WARN] = 'warning' }

-- Whether just these diagnostics are shown: the line, the byte of the line and the severity of each.
local function shows(...)
  local shown = {}
  for _, mark in ipairs(vim.diagnostic.get(0)) do
    table.insert(shown, string.format('%d:%d %s', mark.lnum, mark.col, names[mark.severity]))
  end
  table.sort(shown)
  return vim.deep_equal(shown, { ... })
end

local function ask(method, params)
  local asked = {}
  local _, id = client.request(method, params, function(fault, result)
    asked.fault, asked.result, asked.came = fault, result, true
  end)
  asked.id = id
  return asked
end

local function configure(version)
  client.config.settings = { toml = { version = version } }
  client.settings = client.config.settings -- so from 0.10 on
  client.notify('workspace/didChangeConfiguration', { settings = client.config.settings })
end

vim.api.nvim_buf_set_name(0, vim.fn.tempname() .. '.toml')
vim.api.nvim_buf_set_lines(0, 0, -1, false, { 'apple = 3', '"größe" = { apple = 3, }', '"𝒙" = pear' })
local capabilities = vim.lsp.protocol.make_client_capabilities()
-- Neovim 0.7 can be asked for its configuration, and does not say so.
capabilities.workspace.configuration = true
vim.lsp.start_client({
  name = 'toml',
  cmd = command,
  capabilities = capabilities,
  settings = { toml = { version = '1.0' } },
  on_init = function(begun) client = begun end,
  on_exit = function(status) ended = { status = status } end,
})
if not vim.wait(patience, function() return client or ended end, 5) or ended then
  say('the server did not begin a session')
  vim.cmd('cquit 1')
end
vim.lsp.buf_attach_client(0, client.id)

wait_for('a value that is none and a comma that TOML 1.0 does not allow are marked', function()
  return shows('1:23 warning', '2:9 error')
end)
configure('1.1')
wait_for('the setting allows the comma', function() return shows('2:9 error') end)
configure('1.0')
wait_for('and takes that back', function() return shows('1:23 warning', '2:9 error') end)
vim.api.nvim_buf_set_text(0, 1, 23, 1, 24, { '' })
wait_for('a comma that was deleted is marked no more', function() return shows('2:9 error') end)

vim.api.nvim_win_set_cursor(0, { 3, 2 })
local hover = ask('textDocument/hover', vim.lsp.util.make_position_params(0, client.offset_encoding))
wait_for('a hover is answered while a value is none', function()
  return hover.came and hover.result and hover.result.contents.value:find('"𝒙"', 1, true) ~= nil
end)
vim.api.nvim_buf_set_text(0, 2, 9, 2, 13, { '1' })
wait_for('nothing is marked in a text that is right', function() return shows() end)
vim.api.nvim_win_set_cursor(0, { 2, 14 })
local inner = ask('textDocument/hover', vim.lsp.util.make_position_params(0, client.offset_encoding))
wait_for('a hover tells the full key and its type', function()
  return inner.came and inner.result and inner.result.contents.value == '"größe".apple: integer'
end)

local lines = {}
for number = 1, 20000 do lines[number] = 'key_' .. number .. ' = 1\n' end
client.notify('textDocument/didOpen', {
  textDocument = { uri = 'file:///long.toml', languageId = 'toml', version = 1, text = table.concat(lines) },
})
local search = ask('workspace/symbol', { query = 'key_' })
client.cancel_request(search.id)
wait_for('a long request ends', function() return client.requests[search.id] == nil end)
note(pooled and 'it was cancelled' or 'it was cancelled or answered', not search.came or not pooled and #search.result == 20000)
local again = ask('workspace/symbol', { query = 'größe' })
wait_for('another is answered', function() return again.came and #again.result == 2 end)

client.stop()
if not vim.wait(patience, function() return ended ~= nil end, 5) then
  say('the server still runs')
  vim.cmd('cquit 1')
end
say('ended with status %d', ended.status)
good = good and ended.status == 0
say(good and 'as it should be' or 'NOT as it should be')
vim.cmd(good and 'qall!' or 'cquit 1')
