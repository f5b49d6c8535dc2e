-- Starts a server as the language client of Neovim does, sends it two requests, prints the replies, and stops it.
--   LSP_SERVER="program argument .." nvim --headless -u NONE -i NONE -S editors/neovim/session.lua
-- Without LSP_SERVER it is `crates/lsp_demo/out/lsp_demo serve`. Ends in status 1 where it isn't answered as it should be.

local command = vim.split(vim.env.LSP_SERVER or 'crates/lsp_demo/out/lsp_demo serve', ' ')
local patience = 10000
local client, ended

local function say(...)
  io.stdout:write(string.format(...), '\n')
end

local function fail(...)
  say(...)
  vim.cmd('cquit 1')
end

local function ask(client, method, params)
  local outcome
  client.request(method, params, function(fault, result)
    outcome = { fault = fault, result = result }
  end)
  if not vim.wait(patience, function() return outcome ~= nil end, 5) then
    fail('%s: no reply', method)
  end
  local shown = outcome.fault and { code = outcome.fault.code, message = outcome.fault.message } or outcome.result
  say('%s: %s %s', method, outcome.fault and 'error' or 'result', vim.inspect(shown, { newline = ' ', indent = '' }))
  return outcome
end

vim.lsp.start_client({
  name = 'lsp_demo',
  cmd = command,
  on_init = function(begun) client = begun end,
  on_exit = function(status) ended = { status = status } end,
})
if not vim.wait(patience, function() return client or ended end, 5) or ended then
  fail('the server did not begin a session')
end
say('initialized, capabilities %s', vim.inspect(client.server_capabilities, { newline = ' ', indent = '' }))

local params = { text = 'größe 日本', list = { 1, { 2, 'three' } } }
local echoed = ask(client, 'demo/echo', params)
local unknown = ask(client, 'textDocument/hover', { position = { line = 0, character = 0 } })

client.stop()
if not vim.wait(patience, function() return ended ~= nil end, 5) then
  fail('the server still runs')
end
say('ended with status %d', ended.status)

local good = vim.deep_equal(echoed.result, params)
  and unknown.fault and unknown.fault.code == -32601 and unknown.fault.message == 'method not found'
  and ended.status == 0
say(good and 'as it should be' or 'NOT as it should be')
vim.cmd(good and 'qall!' or 'cquit 1')
