-- Edits lines of half a megabyte and more. After each edit the text of `example_toml` has to be the buffer's.
--   LSP_SERVER="program argument .." nvim --headless -u NONE -i NONE -S editors/neovim/long.lua
-- ENCODING is as in typing.lua. Ends in status 1 where a text differs.
local command = vim.split(vim.env.LSP_SERVER or 'crates/example_toml/out/example_toml', ' ')
local patience = 20000
local client, ended
vim.o.swapfile = false
vim.api.nvim_buf_set_name(0, vim.fn.tempname() .. '.toml')
local lines = { '# ' .. string.rep('größe 😀 e\u{301} ', 60000), 'a = 1', '# ' .. string.rep('𝒙', 250000), '' }
vim.api.nvim_buf_set_lines(0, 0, -1, false, lines)
local capabilities = vim.lsp.protocol.make_client_capabilities()
if vim.env.ENCODING then capabilities.general.positionEncodings = { vim.env.ENCODING } end
vim.lsp.start_client({
  name = 'toml',
  cmd = command,
  capabilities = capabilities,
  flags = { allow_incremental_sync = true, debounce_text_changes = 0 },
  on_init = function(begun) client = begun end,
  on_exit = function(status) ended = status end,
})
vim.wait(patience, function() return client or ended end, 5)
vim.lsp.buf_attach_client(0, client.id)

local right, looks = 0, 0
local function look()
  local wanted = table.concat(vim.api.nvim_buf_get_lines(0, 0, -1, true), '\n') .. '\n'
  local reply
  client.request('toml/text', { textDocument = { uri = vim.uri_from_bufnr(0) } }, function(_, result) reply = result end)
  vim.wait(patience, function() return reply ~= nil end, 1)
  looks = looks + 1
  right = right + (reply == wanted and 1 or 0)
end

look()
for step = 1, 30 do
  local row = step % 2 == 0 and 0 or 2
  local line = vim.api.nvim_buf_get_lines(0, row, row + 1, true)[1]
  local at = step * 33331 % #line
  while at < #line and line:byte(at + 1) >= 128 and line:byte(at + 1) < 192 do at = at + 1 end
  vim.api.nvim_buf_set_text(0, row, at, row, at, step % 5 == 0 and { 'ß', '# 👨‍👩‍👧' } or { '😀' })
  look()
end
client.stop()
vim.wait(patience, function() return ended ~= nil end, 5)
local good = right == looks and ended == 0
io.stdout:write(string.format('%d of %d looks right, status %s\n%s\n', right, looks, ended, good and 'as it should be' or 'NOT as it should be'))
vim.cmd(good and 'qall!' or 'cquit 1')
