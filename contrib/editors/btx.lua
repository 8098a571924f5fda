-- The language server of BibTeX, proved, for Neovim 0.7.2 or later: copy this file to ~/.config/nvim/plugin/.

vim.filetype.add({ extension = { bst = "bst", aux = "texaux" } })

-- Neovim 0.7 doesn't have vim.lsp.start: there a server is kept for each folder.
local clients = {}

local function start(config, buffer)
  if vim.lsp.start then
    return vim.lsp.start(config)
  end
  local client = clients[config.root_dir]
  if not client or vim.lsp.client_is_stopped(client) then
    client = vim.lsp.start_client(config)
    clients[config.root_dir] = client
  end
  if client then
    vim.lsp.buf_attach_client(buffer, client)
  end
end

vim.api.nvim_create_autocmd("FileType", {
  pattern = { "bst", "bib", "tex", "plaintex", "texaux" },
  callback = function(event)
    start({
      name = "btx",
      cmd = { "python3", "-m", "btx", "lsp" },
      -- keeps Python from importing what is in the folder of a stranger
      cmd_env = { PYTHONSAFEPATH = "1" },
      root_dir = vim.fn.fnamemodify(vim.api.nvim_buf_get_name(event.buf), ":p:h"),
    }, event.buf)
  end,
})
