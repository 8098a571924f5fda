-- Drives contrib/editors/btx.lua by Neovim without a screen, in a folder with d.bib and s.bst: prints what its user would see, one line each.
local function say(...)
  io.stdout:write(table.concat(vim.tbl_map(tostring, { ... }), " "), "\n")
end

local function wait_for(test)
  vim.wait(30000, test, 50)
end

local function clients()
  return #vim.tbl_keys(vim.lsp.buf_get_clients and vim.lsp.buf_get_clients(0) or vim.lsp.get_clients({ bufnr = 0 }))
end

local function ask(method, params)
  local answers = vim.lsp.buf_request_sync(0, method, params, 30000) or {}
  for _, answer in pairs(answers) do
    return answer.result
  end
end

vim.cmd("edit d.bib")
say("type", vim.bo.filetype)
wait_for(function() return clients() > 0 and #vim.diagnostic.get(0) > 0 end)
say("clients", clients())
for _, it in ipairs(vim.diagnostic.get(0)) do
  say("diagnostic", it.lnum, it.message)
end
local place = { line = 0, character = 14 }
local actions = ask("textDocument/codeAction", { textDocument = vim.lsp.util.make_text_document_params(), range = { start = place, ["end"] = place }, context = { diagnostics = {} } })
say("action", actions[1].title)
vim.lsp.util.apply_workspace_edit(actions[1].edit, "utf-16")
say("line", vim.api.nvim_buf_get_lines(0, 0, 1, false)[1])
wait_for(function() return #vim.diagnostic.get(0) == 0 end)
say("diagnostics", #vim.diagnostic.get(0))
vim.cmd("write")
vim.cmd("edit s.bst")
say("type", vim.bo.filetype)
wait_for(function() return clients() > 0 end)
vim.fn.search("misc} { out", "e")
local hover = ask("textDocument/hover", vim.lsp.util.make_position_params(0, "utf-16"))
say("hover", hover.contents.value)
vim.lsp.buf.rename("put")
wait_for(function() return vim.api.nvim_buf_get_lines(0, 2, 3, false)[1]:find("{ put", 1, true) ~= nil end)
say("line", vim.api.nvim_buf_get_lines(0, 2, 3, false)[1])
say("servers", #vim.lsp.get_active_clients())
vim.cmd("quitall!")
