-- Tries the settings for Neovim that docs/EDITORS.md shows: the server is started in a file, and marks one fault of it. Without the settings it
-- would mark two.
--   BLOCK=1 LSP_SERVER="program argument .." nvim --headless -u NONE -i NONE -S editors/neovim/page.lua
-- BLOCK is the number of the block. Ends in status 1 if other marks came.
local words = vim.split(vim.env.LSP_SERVER or 'crates/example_toml/out/example_toml', ' ')
local blocks = {}
for block in (table.concat(vim.fn.readfile('docs/EDITORS.md'), '\n')):gmatch('```lua\n(.-)```') do
  table.insert(blocks, block)
end
local block = blocks[tonumber(vim.env.BLOCK or '1')]
if block:find('vim.lsp.config', 1, true) and vim.fn.has('nvim-0.11') == 0 then
  io.stdout:write('not of this version\n')
  vim.cmd('qall!')
end
local command, count = block:gsub("{ '/path/to/example_toml' }", function() return vim.inspect(words) end)
assert(count == 1 and load(command))()
vim.o.swapfile = false
local file = vim.fn.tempname() .. '.toml'
vim.fn.writefile({ 'a = { b = 1, }', 'c = pear' }, file)
vim.cmd('filetype on')
vim.cmd('edit ' .. file)
local good = vim.wait(10000, function()
  local marks = vim.diagnostic.get(0)
  return #marks == 1 and marks[1].lnum == 1
end, 10)
io.stdout:write(good and 'as it should be\n' or 'NOT as it should be\n')
vim.cmd(good and 'qall!' or 'cquit 1')
