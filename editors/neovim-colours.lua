-- Links the types of tokens that the protocol doesn't have to groups that each colour scheme knows.

for type, group in pairs({
  heading = "Title", strong = "Bold", emph = "Italic", link = "Underlined", raw = "String", label = "Label",
  ref = "Identifier", marker = "Special", term = "Define", delimiter = "Delimiter", punctuation = "Delimiter",
  escape = "SpecialChar", error = "Error",
}) do
  vim.api.nvim_set_hl(0, "@lsp.type." .. type .. ".typst", { link = group })
end
