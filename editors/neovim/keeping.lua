-- Reloads, renames, wipes, visits again, restarts the server and undoes 200 steps in Neovim, and looks after each of these, and after
-- edits behind it, whether `example_toml` holds the text of the buffer.
--   LSP_SERVER="program argument .." nvim --headless -u NONE -i NONE -S editors/neovim/keeping.lua
-- Without LSP_SERVER it is `crates/example_toml/out/example_toml`. Ends in status 1 where a text differs.

local command = vim.split(vim.env.LSP_SERVER or 'crates/example_toml/out/example_toml', ' ')
local patience = 10000
local steps = 200
local client, ended
local good = true
local looks = 0

local function say(...)
  io.stdout:write(string.format(...), '\n')
end

local function fail(...)
  say(...)
  vim.cmd('cquit 1')
end

local function note(what, holds)
  good = good and holds
  say('%s: %s', what, holds and 'yes' or 'NO')
end

local function begin()
  client, ended = nil, nil
  vim.lsp.start_client({
    name = 'toml',
    cmd = command,
    flags = { allow_incremental_sync = true, debounce_text_changes = 0 },
    on_init = function(begun) client = begun end,
    on_exit = function(status) ended = { status = status } end,
  })
  if not vim.wait(patience, function() return client or ended end, 5) or ended then
    fail('the server did not begin a session')
  end
end

local function attach()
  vim.lsp.buf_attach_client(0, client.id)
end

-- As a plugin that starts servers does, for each buffer that is read.
vim.api.nvim_create_autocmd('BufReadPost', { pattern = '*.toml', callback = attach })

local function ends_well()
  client.stop()
  return vim.wait(patience, function() return ended ~= nil end, 5) and ended.status == 0
end

local function server_text(uri)
  local answer
  client.request('toml/text', { textDocument = { uri = uri } }, function(fault, result)
    answer = { fault = fault, result = result }
  end)
  if not vim.wait(patience, function() return answer ~= nil end, 1) or answer.fault then
    fail('the server did not answer')
  end
  return answer.result ~= vim.NIL and answer.result or nil
end

local function uri()
  return vim.uri_from_bufnr(0)
end

local function buffer_text()
  return table.concat(vim.api.nvim_buf_get_lines(0, 0, -1, true), '\n') .. (vim.bo.eol and '\n' or '')
end

local function is_kept()
  looks = looks + 1
  vim.wait(2)
  local wanted, found = buffer_text(), server_text(uri())
  if wanted ~= found then
    say('the buffer has\n  %s\nand the server\n  %s', vim.inspect(wanted), vim.inspect(found))
  end
  return wanted == found
end

local function put(row, column, lines)
  vim.api.nvim_buf_set_text(0, row, column, row, column, lines)
end

-- Whether the server holds the text of the buffer, and still does after each of three edits.
local function is_kept_in_edits()
  if not is_kept() then return false end
  put(0, 2, { '𝒙' })
  if not is_kept() then return false end
  put(0, 6, { 'größe', '' })
  if not is_kept() then return false end
  put(vim.api.nvim_buf_line_count(0) - 1, 0, { '# 👨‍👩‍👧 é', '' })
  return is_kept()
end

local function write_file(name, lines)
  vim.fn.writefile(lines, name)
end

-- Whether the server holds the text of the buffer after each of many edits, and after each step back.
local function undoes()
  local first = buffer_text()
  local pieces = { 'a', '"𝒙" = 1\n', 'é', '\n', '😀ß' }
  for step = 1, steps do
    -- A new block of changes, which one `:undo` takes back.
    vim.cmd('let &undolevels = &undolevels')
    local row = (step * 37) % vim.api.nvim_buf_line_count(0)
    put(row, 0, vim.split(pieces[step % #pieces + 1], '\n'))
    if not is_kept() then return false end
  end
  for _ = 1, steps do
    vim.cmd('silent undo')
    if not is_kept() then return false end
  end
  return buffer_text() == first
end

local folder = vim.fn.tempname()
vim.fn.mkdir(folder)
local file, other, renamed = folder .. '/prices.toml', folder .. '/other.toml', folder .. '/renamed.toml'
local text = { 'apple = 3', '"größe" = { apple = 30 }', '"𝒙" = "größe"', '# 👨‍👩‍👧 e\u{301}' }
write_file(file, text)
write_file(other, { '# 😀 another text', 'four = 4' })
vim.o.hidden = true
vim.o.swapfile = false
vim.o.autoread = true

begin()
vim.cmd('edit ' .. file)
note('a file was visited', is_kept_in_edits())
vim.cmd('edit ' .. other)
note('another was visited', is_kept_in_edits())

write_file(other, { '# other lines stand in the file', '"ß" = 1' })
vim.cmd('edit!')
note('the file was read again', is_kept_in_edits())
put(0, 0, { 'not told yet ' })
vim.cmd('edit!')
note('it was read again, behind an edit', is_kept_in_edits())
vim.cmd('silent write')
write_file(other, { 'a = [1, 1]', '# 😀😀😀', 'b = 2', 'c = 3' })
vim.cmd('silent checktime')
note('the file changed, and Neovim saw that', buffer_text() == 'a = [1, 1]\n# 😀😀😀\nb = 2\nc = 3\n')
note('it was read again, since the file had changed', is_kept_in_edits())
vim.cmd('buffer ' .. vim.fn.bufnr(file))
note('the other text is what it was', is_kept_in_edits())
vim.bo.fixeol, vim.bo.eol = false, false
vim.cmd('silent write')
vim.cmd('edit!')
note('it was read again, and has no end of its last line', not vim.bo.eol and is_kept_in_edits())

-- Neovim 0.7 tells the server nothing of another name, but speaks of the document by it.
local old = uri()
vim.cmd('silent saveas ' .. renamed)
put(0, 0, { 'renamed ' })
vim.wait(20)
local held = server_text(uri())
note('the buffer was renamed and written, and the server holds no other text under that name',
  uri() ~= old and (held == nil or held == buffer_text()))
vim.cmd('silent write')
vim.cmd('edit!')
note('it was read again', is_kept_in_edits())

-- What a server's edit with a renamed file has Neovim do (`WorkspaceEdit`): the buffer is deleted, and another one has the text.
local moved = folder .. '/moved.toml'
vim.cmd('silent write')
local gone = uri()
vim.lsp.util.rename(renamed, moved)
note('the file was renamed, and the server holds no text under its old name', server_text(gone) == nil)
note('the text under the new name', is_kept_in_edits())

gone = uri()
vim.cmd('silent write')
vim.cmd('bwipeout!')
vim.wait(20)
note('the buffer was wiped out, and the server holds no text of it', server_text(gone) == nil)
vim.cmd('edit ' .. moved)
note('the file was visited again', is_kept_in_edits())

-- As `:LspRestart` does: the client is stopped, another one begins, and the buffers are attached to it.
note('the server ended in status 0', ends_well())
begin()
attach()
note('the server was restarted', is_kept_in_edits())
vim.cmd('buffer ' .. vim.fn.bufnr(other))
attach()
note('it holds the other text too', is_kept_in_edits())
note(string.format('%d edits were undone, a step at a time', steps), undoes())
note('the server ended in status 0', ends_well())

say('%d looks at the server\'s text', looks)
say(good and 'as it should be' or 'NOT as it should be')
vim.cmd(good and 'qall!' or 'cquit 1')
