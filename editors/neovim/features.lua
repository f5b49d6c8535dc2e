-- Has Neovim's language client use what `example_toml` offers for a text: outline, semantic tokens, definition, formatting, folds and completion.
--   LSP_SERVER="program argument .." nvim --headless -u NONE -i NONE -S editors/neovim/features.lua
-- Without LSP_SERVER it is `crates/example_toml/out/example_toml`. Ends in status 1 where something is otherwise. It needs Neovim 0.9.

local command = vim.split(vim.env.LSP_SERVER or 'crates/example_toml/out/example_toml', ' ')
local patience = 10000
local client, ended
local good = true

local function say(...)
  io.stdout:write(string.format(...), '\n')
end

local function note(what, holds)
  good = good and holds
  say('%s: %s', what, holds and 'yes' or 'NO')
end

local function wait_for(what, holds)
  note(what, (vim.wait(patience, holds, 5)))
end

local function lines()
  return vim.api.nvim_buf_get_lines(0, 0, -1, true)
end

local text = {
  '# A crate',
  '# of größe',
  '[package]',
  'name   =    "größe"  ',
  'inner = { "😀" = "x", b = 1 }',
  '',
  '',
  '[dependencies.serde]',
  'version = "1.0"',
  'features = [',
  '  "derive",',
  ']',
  '[dependencies]',
  '[dependencies.rand]',
  'version="0.8"',
}
local formatted = vim.list_extend({ text[1], text[2], text[3], 'name = "größe"', text[5], '' }, vim.list_slice(text, 8, 14))
table.insert(formatted, 'version = "0.8"')

vim.o.swapfile = false
vim.api.nvim_buf_set_name(0, vim.fn.tempname() .. '.toml')
vim.api.nvim_buf_set_lines(0, 0, -1, false, text)
vim.lsp.start_client({
  name = 'toml',
  cmd = command,
  settings = { toml = { version = '1.0' } },
  on_init = function(begun) client = begun end,
  on_exit = function(status) ended = { status = status } end,
})
if not vim.wait(patience, function() return client or ended end, 5) or ended then
  say('the server did not begin a session')
  vim.cmd('cquit 1')
end
vim.lsp.buf_attach_client(0, client.id)

-- The line of each symbol, and its name.
local symbols
vim.lsp.buf.document_symbol({
  on_list = function(list)
    symbols = vim.tbl_map(function(item) return item.lnum .. ' ' .. item.text:match('[^ ]+$') end, list.items)
  end,
})
local outline = {
  '3 package', '4 name', '5 inner', '5 "😀"', '5 b', '8 dependencies.serde', '9 version', '10 features', '13 dependencies',
  '14 dependencies.rand', '15 version',
}
wait_for('the outline has each header and key', function() return vim.deep_equal(symbols, outline) end)

-- The type of the token at this byte of a line, if the tokens came.
local function token(line, byte)
  local found = vim.lsp.semantic_tokens.get_at_pos(0, line - 1, byte) or {}
  return found[1] and found[1].type
end
local function has_tokens(...)
  for _, wanted in ipairs({ ... }) do
    if token(wanted[1], wanted[2]) ~= wanted[3] then return false end
  end
  return true
end
wait_for('tokens have their types, behind an emoji too', function()
  return has_tokens({ 1, 2, 'comment' }, { 4, 1, 'property' }, { 4, 14, 'string' }, { 5, 11, 'property' }, { 5, 20, 'string' },
    { 5, 24, 'property' }, { 5, 28, 'number' })
end)
vim.api.nvim_buf_set_text(0, 4, 28, 4, 29, { 'true' })
wait_for('they follow an edit', function() return has_tokens({ 5, 28, 'keyword' }) end)
vim.api.nvim_buf_set_text(0, 4, 28, 4, 32, { '1' })

vim.api.nvim_win_set_cursor(0, { 14, 3 })
vim.lsp.buf.definition()
wait_for('the definition of a table is its header', function() return vim.api.nvim_win_get_cursor(0)[1] == 13 end)

vim.lsp.buf.format({ timeout_ms = patience })
wait_for('the text is formatted', function() return vim.deep_equal(lines(), formatted) end)

-- The lines that can be folded, counted from 1.
local folds = {}
local replies = vim.lsp.buf_request_sync(0, 'textDocument/foldingRange', { textDocument = vim.lsp.util.make_text_document_params() }, patience)
for _, fold in ipairs(replies and replies[client.id] and replies[client.id].result or {}) do
  table.insert(folds, fold.startLine + 1 .. '-' .. fold.endLine + 1)
end
table.sort(folds)
note('tables, a value of several lines and a comment can be folded', vim.deep_equal(folds, { '1-2', '13-14', '3-5', '7-11', '9-11' }))
if vim.lsp.foldexpr then
  vim.wo.foldmethod, vim.wo.foldexpr, vim.wo.foldlevel = 'expr', 'v:lua.vim.lsp.foldexpr()', 0
  wait_for('and Neovim folds them', function() return vim.fn.foldclosedend(7) == 11 and vim.fn.foldclosedend(3) == 5 end)
  vim.wo.foldmethod = 'manual'
end

local function ends()
  client.stop()
  wait_for('the server ends in status 0', function() return ended and ended.status == 0 end)
  say(good and 'as it should be' or 'NOT as it should be')
  vim.cmd(good and 'qall!' or 'cquit 1')
end

-- Types and completes as a user does. Neovim waits for keys between two steps, so this goes on in callbacks.
local function type_keys(keys)
  vim.api.nvim_feedkeys(vim.api.nvim_replace_termcodes(keys, true, false, true), 'nt', false)
end
local steps = {
  { 'a key of similar tables is completed', 'Gofeat<C-x><C-o>', 'features' },
  { 'a table after a bracket', '<Esc>ccx = 1<CR>[pack<C-x><C-o>', '[package' },
  { 'a value', '<Esc>ccy = tr<C-x><C-o>', 'y = true' },
}
local function take(number)
  local step = steps[number]
  if not step then return ends() end
  type_keys(step[2])
  local timer, tries = vim.uv and vim.uv.new_timer() or vim.loop.new_timer(), 0
  timer:start(50, 50, vim.schedule_wrap(function()
    if timer:is_closing() then return end
    tries = tries + 1
    local came = vim.api.nvim_get_current_line() == step[3]
    if not came and tries < patience / 50 then return end
    timer:close()
    note(step[1], came)
    take(number + 1)
  end))
end
vim.o.completeopt = 'menu'
-- After this script, when Neovim reads keys.
vim.schedule(function() take(1) end)
