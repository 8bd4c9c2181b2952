-- In Neovim: starts the language server, or takes the one that runs. This folder may be a link.
local here = vim.fn.fnamemodify(vim.fn.resolve(vim.fn.fnamemodify(debug.getinfo(1, 'S').source:sub(2), ':p')), ':h')
local words = { name = 'inet', cmd = { 'python3', vim.fn.simplify(here .. '/../../server/main.py') } }
if vim.lsp.start then
  vim.lsp.start(words)
else
  -- Before Neovim 0.8.
  local client = vim.g.inet_client
  if not (client and vim.lsp.get_client_by_id(client)) then
    client = vim.lsp.start_client(words)
    vim.g.inet_client = client
  end
  if client then
    vim.lsp.buf_attach_client(0, client)
  end
end
vim.bo.omnifunc = 'v:lua.vim.lsp.omnifunc'
