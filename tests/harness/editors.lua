-- In Neovim, on a text that is open: waits for what is expected, step by step, and prints what it sees as one line of JSON.
local wait = 120000
local seen = {}

local function diagnosed(count)
  return vim.wait(wait, function() return #vim.diagnostic.get(0) == count end, 20)
end

local function text()
  return table.concat(vim.api.nvim_buf_get_lines(0, 0, -1, true), '\n') .. '\n'
end

-- The kinds of the colours at each place of a line.
local function colours(line)
  local found = {}
  for column = 1, #vim.fn.getline(line) do
    found[column] = vim.fn.synIDattr(vim.fn.synID(line, column, 1), 'name')
  end
  return found
end

seen.filetype = vim.bo.filetype
seen.diagnosed = diagnosed(1)
local found = vim.diagnostic.get(0)[1]
seen.place = { found.lnum + 1, found.col + 1 }
seen.message = found.message
seen.colours = {}
for line = 1, vim.fn.line('$') do
  seen.colours[line] = colours(line)
end

-- The first of the changes that are offered.
vim.ui.select = function(items, _, choose)
  seen.offered = #items
  choose(items[1], 1)
end
vim.api.nvim_win_set_cursor(0, { found.lnum + 1, found.col })
vim.lsp.buf.code_action()
seen.mended = diagnosed(0)
seen.text = text()

-- A hover, a definition, another name and a completion, through the client.
local function ask(method, line, column, more)
  local words = { textDocument = vim.lsp.util.make_text_document_params(), position = { line = line - 1, character = column } }
  local answers = vim.lsp.buf_request_sync(0, 'textDocument/' .. method, vim.tbl_extend('error', words, more or {}), wait)
  local _, answer = next(answers)
  return answer.result
end
local line = vim.fn.search('^symbol Add', 'nw')
seen.hover = ask('hover', line, 8).contents.value
seen.completions = #ask('completion', vim.fn.line('$'), 0)
vim.api.nvim_win_set_cursor(0, { line, 8 })
vim.lsp.buf.rename('Sum')
seen.renamed = vim.wait(wait, function() return vim.fn.search('^symbol Sum', 'nw') == line end, 20)

-- Typing: what is wrong appears, and goes again.
vim.api.nvim_buf_set_lines(0, line, line, true, { 'symbol' })
seen.typed = diagnosed(1)
vim.api.nvim_buf_set_lines(0, line, line + 1, true, {})
seen.typed_again = diagnosed(0)
io.stdout:write(vim.fn.json_encode(seen), '\n')
vim.cmd('qall!')
