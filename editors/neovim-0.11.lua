-- Starts the server for Typst in Neovim 0.11 and later, by `dofile` in an init.lua.

vim.filetype.add({ extension = { typ = "typst" } })
vim.lsp.config("typst_lsp", {
  cmd = { "typst_lsp" },
  filetypes = { "typst" },
  root_markers = { "typst.toml", ".git" },
})
vim.lsp.enable("typst_lsp")
vim.diagnostic.config({ update_in_insert = true })
