-- Starts the server for Typst: `nvim -u editors/neovim.lua FILE`, or by `dofile` in an init.lua.

-- The keys that newer versions of Neovim have for the same, and `gd`. With each, the method that the server must support.
local keys = {
  { "gd", vim.lsp.buf.definition, "textDocument/definition" },
  { "grr", vim.lsp.buf.references, "textDocument/references" },
  { "grn", vim.lsp.buf.rename, "textDocument/rename" },
  { "gra", vim.lsp.buf.code_action, "textDocument/codeAction" },
  { "gO", vim.lsp.buf.document_symbol, "textDocument/documentSymbol" },
  { "K", vim.lsp.buf.hover, "textDocument/hover" },
  { "[d", vim.diagnostic.goto_prev },
  { "]d", vim.diagnostic.goto_next },
  { "<C-W>d", vim.diagnostic.open_float },
}

-- Shows errors while text is typed, has `<C-X><C-O>` complete, and sets the keys.
local function on_attach(client, buffer)
  vim.bo[buffer].omnifunc = "v:lua.vim.lsp.omnifunc"
  vim.diagnostic.config({ update_in_insert = true }, vim.lsp.diagnostic.get_namespace(client.id))
  for _, key in ipairs(keys) do
    if not key[3] or client.supports_method(key[3]) then
      vim.keymap.set("n", key[1], key[2], { buffer = buffer })
    end
  end
end

local client

vim.api.nvim_create_autocmd({ "BufRead", "BufNewFile" }, {
  pattern = "*.typ",
  callback = function(event)
    vim.bo[event.buf].filetype = "typst"
    client = client or vim.lsp.start_client({
      name = "typst_lsp",
      cmd = { "typst_lsp" },
      root_dir = vim.fn.fnamemodify(event.file, ":p:h"),
      on_attach = on_attach,
    })
    vim.lsp.buf_attach_client(event.buf, client)
  end,
})
