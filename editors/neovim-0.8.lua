-- Starts the server for Typst in Neovim 0.8 to 0.10, by `dofile` in an init.lua.

vim.filetype.add({ extension = { typ = "typst" } })
vim.api.nvim_create_autocmd("FileType", {
  pattern = "typst",
  callback = function(event)
    vim.lsp.start({ name = "typst_lsp", cmd = { "typst_lsp" }, root_dir = vim.fs.dirname(event.file) })
  end,
})
vim.diagnostic.config({ update_in_insert = true })
