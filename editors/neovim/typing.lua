-- Types, pastes, undoes and replaces in Neovim, in a text with emoji and combining marks, and looks after each edit whether
-- `example_toml` holds the text of the buffer. The lines end with `\n`, then with `\r\n`, then with `\r`. Last they are mixed: there
-- Neovim takes the `\r` of a `\r\n` for a character of its line. A server counts `\r` in one way in all texts. So where it stands by itself the
-- texts may part, but the server says then that a position is past the end, or at a save that the text is another one.
--   LSP_SERVER="program argument .." nvim --headless -u NONE -i NONE -S editors/neovim/typing.lua
-- ENCODING is `utf-8`, `utf-16` or `utf-32` (from Neovim 0.10 on): what the client offers to count in.
-- Without LSP_SERVER it is `crates/example_toml/out/example_toml`; SEED and EDITS are 1 and 300. Ends in status 1 where
-- a text differs.

local command = vim.split(vim.env.LSP_SERVER or 'crates/example_toml/out/example_toml', ' ')
local edits = tonumber(vim.env.EDITS or '300')
local patience = 10000
local client, ended
math.randomseed(tonumber(vim.env.SEED or '1'))

local function say(...)
  io.stdout:write(string.format(...), '\n')
end

local function fail(...)
  say(...)
  vim.cmd('cquit 1')
end

local pieces = { 'a', 'word ', '= 1', 'ß', 'é', 'e\u{301}', '漢字', '𝒙', '😀', '👨‍👩‍👧', '🇪🇺', '\u{2028}', '\t', '' }

local function any(list)
  return list[math.random(#list)]
end

local function some_text(most)
  local parts = {}
  for _ = 1, math.random(most) do
    table.insert(parts, any(pieces))
  end
  return table.concat(parts)
end

local function some_lines()
  local lines = {}
  for _ = 1, math.random(3) do
    table.insert(lines, some_text(3))
  end
  return lines
end

-- A place of the buffer between two characters: the line, and the byte of it.
local function some_place()
  local row = math.random(vim.api.nvim_buf_line_count(0)) - 1
  local line = vim.api.nvim_buf_get_lines(0, row, row + 1, true)[1]
  local starts = { #line }
  for at = 1, #line do
    local byte = line:byte(at)
    if byte < 128 or byte >= 192 then
      table.insert(starts, at - 1)
    end
  end
  return row, any(starts)
end

local function go_anywhere()
  local row, column = some_place()
  vim.api.nvim_win_set_cursor(0, { row + 1, column })
end

local function keys(written)
  vim.api.nvim_feedkeys(vim.api.nvim_replace_termcodes(written, true, false, true), 'ntx', false)
end

local ways = {
  typed = function()
    go_anywhere()
    local text = some_text(4):gsub('\t', ''):gsub('<', '')
    keys(any({ 'i', 'a', 'A', 'o', 'O' }) .. text .. any({ '', '<CR>', '<BS>', '<BS><BS>', '<C-w>' }) .. '<Esc>')
  end,
  deleted = function()
    go_anywhere()
    keys(any({ 'x', 'X', 'dw', 'dd', 'D', 'J', '3x', 'd2w' }))
  end,
  pasted = function()
    go_anywhere()
    vim.fn.setreg('a', some_lines(), any({ 'c', 'l' }))
    keys(any({ '"ap', '"aP', '"a2p' }))
  end,
  replaced = function()
    go_anywhere()
    keys(any({ 'rz', '~', 'ccwhole<Esc>', 'cwother<Esc>', '>>' }))
  end,
  substituted = function()
    vim.cmd('silent! ' .. any({ '%s/a/😀/ge', '%s/😀/b/ge', 's/ \\+/é/ge', 's/ /\\r/e' }))
  end,
  written = function()
    local first_row, first = some_place()
    local last_row, last = some_place()
    if last_row < first_row or (last_row == first_row and last < first) then
      first_row, first, last_row, last = last_row, last, first_row, first
    end
    vim.api.nvim_buf_set_text(0, first_row, first, last_row, last, some_lines())
  end,
  undone = function() vim.cmd('silent! ' .. any({ 'undo', 'undo', 'redo', 'earlier 3' })) end,
}
local names = { 'typed', 'typed', 'deleted', 'pasted', 'replaced', 'substituted', 'written', 'undone' }

local endings = { unix = '\n', dos = '\r\n', mac = '\r' }

local function text_of_buffer()
  local ending = endings[vim.bo.fileformat]
  return table.concat(vim.api.nvim_buf_get_lines(0, 0, -1, true), ending) .. (vim.bo.eol and ending or '')
end

local function text_of_server()
  local answer
  client.request('toml/text', { textDocument = { uri = vim.uri_from_bufnr(0) } }, function(fault, result)
    answer = { fault = fault, result = result }
  end)
  if not vim.wait(patience, function() return answer ~= nil end, 1) or answer.fault then
    fail('the server did not answer')
  end
  return answer.result
end

for _, format in ipairs({ 'unix', 'dos', 'mac', 'mixed' }) do
  local mixed, may_part, told = format == 'mixed', format == 'mixed' or format == 'mac', false
  vim.cmd('enew!')
  vim.bo.fileformat = mixed and 'unix' or format
  vim.api.nvim_buf_set_name(0, vim.fn.tempname() .. '.toml')
  local ending = mixed and '\r' or ''
  vim.api.nvim_buf_set_lines(0, 0, -1, false, { 'apple = 3' .. ending, '"größe" = { apple = 30 }', '"𝒙" = "größe"' .. ending, '# 👨‍👩‍👧 e\u{301}', '' })
  client, ended = nil, nil
  local capabilities = vim.lsp.protocol.make_client_capabilities()
  if vim.env.ENCODING then capabilities.general.positionEncodings = { vim.env.ENCODING } end
  vim.lsp.start_client({
    name = 'toml',
    cmd = command,
    capabilities = capabilities,
    handlers = {
      ['window/logMessage'] = function(_, params)
        told = told or params.message:find('past the end', 1, true) ~= nil or params.message:find('another one', 1, true) ~= nil
      end,
    },
    flags = { allow_incremental_sync = true, debounce_text_changes = 0 },
    on_init = function(begun) client = begun end,
    on_exit = function(status) ended = { status = status } end,
  })
  if not vim.wait(patience, function() return client or ended end, 5) or ended then
    fail('the server did not begin a session')
  end
  vim.lsp.buf_attach_client(0, client.id)
  if vim.env.ENCODING and client.offset_encoding ~= vim.env.ENCODING then
    fail('the client counts in %s', client.offset_encoding)
  end
  local right, parted = 0, false
  for edit = 1, edits do
    local name = any(names)
    pcall(ways[name])
    vim.wait(5)
    local wanted, found = text_of_buffer(), text_of_server()
    if wanted ~= found and may_part and not told then
      vim.cmd('silent write')
      vim.wait(1000, function() return told end, 5)
    end
    if wanted ~= found and may_part and told then
      say('%s: the texts part at edit %d, and the server said so', format, edit)
      right, parted = edits, true
      break
    elseif wanted ~= found then
      say('after edit %d (%s) of %s, the buffer has\n  %s\nand the server\n  %s', edit, name, format, vim.inspect(wanted), vim.inspect(found))
      break
    end
    right = right + 1
  end
  if not parted then
    say('%s: the server held the text of the buffer after %d of %d edits, %d bytes at the end', format, right, edits, #text_of_buffer())
  end
  client.stop()
  vim.wait(patience, function() return ended ~= nil end, 5)
  if right < edits or not ended or ended.status ~= 0 then
    fail('NOT as it should be')
  end
end
say('as it should be')
vim.cmd('qall!')
