-- Edits a document at random in Neovim, and asks the server about it now and then.
--
-- The server is `typst_lsp` of the PATH, TRY_FILE the document, TRY_EDITS how many edits are made, TRY_PACE how many of them
-- before each checkpoint, TRY_SEED what they follow from. The texts of the buffer at checkpoints are written to TRY_LOG.

local env = vim.env
local edits, pace, seed = tonumber(env.TRY_EDITS), tonumber(env.TRY_PACE), tonumber(env.TRY_SEED)
local pieces = { "= Hi", "*a*", "_b_", "💛", "ä", "#let x = 1", "#{", "}", "[", "]", "$x^2$", "`r`", "```", "<l>", "@l",
  "- item", "/ t: d", "// c", "/* c", "*/", " ", "\u{2028}", "\\", "a", ";", "" }
local commands = { "x", "dd", "yyp", "J", "~", ">>", "ddp", "P", "gUU", "dap", "D", "oa *b* 💛", "Ia", "u", "u", ":redo\r", "." }
local questions = { "semanticTokens/full", "documentSymbol", "foldingRange" }
local fence = string.rep("`", 40)

vim.cmd("edit " .. vim.fn.fnameescape(env.TRY_FILE))
local buffer = vim.api.nvim_get_current_buf()
local document = { uri = vim.uri_from_bufnr(buffer) }

local function start_server()
  local client = vim.lsp.start_client({ name = "typst_lsp", cmd = { "typst_lsp" }, root_dir = vim.fn.getcwd() })
  vim.lsp.buf_attach_client(buffer, client)
  assert(vim.wait(60000, function()
    local known = vim.lsp.get_client_by_id(client)
    return known ~= nil and known.initialized
  end))
  return client
end

local function ask(method, params)
  params.textDocument = document
  assert(vim.lsp.buf_request_sync(buffer, "textDocument/" .. method, params, 900000), method)
end

local function random_place()
  local row = math.random(0, vim.api.nvim_buf_line_count(buffer) - 1)
  local line = vim.api.nvim_buf_get_lines(buffer, row, row + 1, true)[1]
  return { row, vim.str_byteindex(line, math.random(0, (vim.str_utfindex(line)))) }
end

local function random_lines()
  local lines = {}
  for number = 1, math.random(1, 3) do
    lines[number] = pieces[math.random(#pieces)] .. pieces[math.random(#pieces)]
  end
  return lines
end

local function replace_some()
  local from, to = random_place(), random_place()
  to[1] = math.min(from[1] + math.random(0, 2), vim.api.nvim_buf_line_count(buffer) - 1)
  local line = vim.api.nvim_buf_get_lines(buffer, to[1], to[1] + 1, true)[1]
  to[2] = vim.str_byteindex(line, math.random(0, (vim.str_utfindex(line))))
  if to[1] == from[1] and to[2] < from[2] then
    from, to = to, from
  end
  vim.api.nvim_buf_set_text(buffer, from[1], from[2], to[1], to[2], random_lines())
end

local function type_some()
  local place = random_place()
  vim.api.nvim_win_set_cursor(0, { place[1] + 1, place[2] })
  vim.cmd("silent! normal! " .. commands[math.random(#commands)])
end

local function edit()
  if math.random() < 0.5 then
    replace_some()
  else
    type_some()
  end
  -- A question sends what has gathered, so that some changes go alone and others together.
  if math.random() < 3 / pace then
    ask("documentHighlight", vim.lsp.util.make_position_params(0, "utf-16"))
  end
end

-- Between two fences the text is the name of a heading, so the outline has all of it.
local function ask_text()
  local levels = vim.bo.undolevels
  vim.bo.undolevels = -1
  vim.api.nvim_buf_set_lines(buffer, 0, 0, true, { "= " .. fence })
  vim.api.nvim_buf_set_lines(buffer, -1, -1, true, { fence })
  ask("documentSymbol", {})
  vim.api.nvim_buf_set_lines(buffer, -2, -1, true, {})
  vim.api.nvim_buf_set_lines(buffer, 0, 1, true, {})
  vim.bo.undolevels = levels
end

local function checkpoint(number)
  vim.cmd(string.format("silent keepalt write! %s/text%d", env.TRY_LOG, number))
  for _, question in ipairs(questions) do
    ask(question, {})
  end
  ask_text()
end

local function run()
  math.randomseed(seed)
  local client = start_server()
  for number = 1, edits do
    edit()
    if number % pace == 0 then
      checkpoint(number / pace)
    end
  end
  vim.lsp.get_client_by_id(client).stop()
  assert(vim.wait(60000, function()
    return vim.lsp.get_client_by_id(client) == nil or vim.lsp.get_client_by_id(client).is_stopped()
  end))
end

local ok, why = pcall(run)
if not ok then
  io.stderr:write(tostring(why) .. "\n")
end
vim.cmd(ok and "qall!" or "cquit 1")
