-- Starts a server as the language client of Neovim does, sends it two requests that it keeps, cancels the first and has the
-- second answered, and counts the answers that Neovim shows.
--   LSP_SERVER="program argument .." nvim --headless -u NONE -i NONE -S editors/neovim/cancel.lua
-- Without LSP_SERVER it is `crates/lsp_demo/out/lsp_demo serve`. Ends in status 1 where it isn't answered as it should be.

local command = vim.split(vim.env.LSP_SERVER or 'crates/lsp_demo/out/lsp_demo serve', ' ')
local patience = 10000
local client, ended
local shown = { first = 0, second = 0 }

local function say(...)
  io.stdout:write(string.format(...), '\n')
end

local function await(what, holds)
  if not vim.wait(patience, holds, 5) then
    say('%s: not within %d seconds', what, patience / 1000)
    vim.cmd('cquit 1')
  end
end

local function ask(name, params)
  local _, id = client.request('demo/hold', params, function(fault, result)
    shown[name] = shown[name] + 1
    say('%s: %s', name, vim.inspect(fault or result, { newline = ' ', indent = '' }))
  end)
  return id
end

vim.lsp.start_client({
  name = 'lsp_demo',
  cmd = command,
  on_init = function(begun) client = begun end,
  on_exit = function(status) ended = { status = status } end,
})
await('a session', function() return client end)

local first = ask('first', { 'first' })
ask('second', { 'second' })
client.cancel_request(first)
client.cancel_request(first)
client.notify('demo/release')
await('an answer', function() return shown.second > 0 end)
client.notify('demo/release')
vim.wait(500, function() return false end)
say('answers shown: %d to the cancelled request, %d to the other', shown.first, shown.second)

client.stop()
await('the end', function() return ended end)
say('ended with status %d', ended.status)

local good = shown.first == 0 and shown.second == 1 and ended.status == 0
say(good and 'as it should be' or 'NOT as it should be')
vim.cmd(good and 'qall!' or 'cquit 1')
