-- Makes the cases of cases.rows in Neovim, with the configuration and the keys of ../neovim.lua.
--
-- TRY_LOG/cases.json has for each case its file, the line and character of the cursor, an action and its argument. What is
-- shown afterwards is written to TRY_LOG/shown.json: a text for each, or null where Neovim doesn't offer the action.

local api, env, lsp = vim.api, vim.env, vim.lsp
local buffer, notices

vim.opt.completeopt = { "menuone", "noselect" }
vim.opt.hidden = true
vim.opt.virtualedit = "onemore"

vim.notify = function(notice)
  table.insert(notices, notice)
end

local function lines()
  return api.nvim_buf_get_lines(buffer, 0, -1, true)
end

local function text()
  return table.concat(lines(), "\n")
end

-- The text with a mark at each place, a line from 1 and a byte from 0.
local function marked(places)
  table.sort(places, function(one, other)
    return one[1] > other[1] or one[1] == other[1] and one[2] > other[2]
  end)
  local found = lines()
  for _, place in ipairs(places) do
    local line = found[place[1]]
    found[place[1]] = line:sub(1, place[2]) .. "|" .. line:sub(place[2] + 1)
  end
  return table.concat(found, "\n")
end

-- Waits for the answers to what was asked, to what was asked for these, and once more.
local function settle()
  for _ = 1, 3 do
    local params = { textDocument = { uri = vim.uri_from_bufnr(buffer) } }
    assert(lsp.buf_request_sync(buffer, "textDocument/documentSymbol", params, 60000))
  end
end

local function press(keys)
  vim.cmd("normal " .. keys)
  settle()
end

-- The line, column and message of each error and warning that is shown.
local function problems()
  local shown = vim.tbl_map(function(problem)
    return string.format("%d:%d %s", problem.lnum + 1, problem.col + 1, problem.message)
  end, vim.diagnostic.get(buffer))
  table.sort(shown)
  return shown
end

local actions = {}

function actions.rename(name)
  vim.ui.input = function(_, answer)
    answer(name)
  end
  press("grn")
  return (#notices > 0 and "refused\n" or "") .. text()
end

function actions.prepare()
  local proposed = "nothing"
  vim.ui.input = function(options)
    proposed = options.default
  end
  press("grn")
  return proposed
end

function actions.fix(number)
  vim.ui.select = function(offered, _, answer)
    answer(offered[tonumber(number)], tonumber(number))
  end
  press("gra")
  return (#notices > 0 and "refused\n" or "") .. table.concat({ text(), unpack(problems()) }, "\n")
end

-- The words of the menu, and the keys that take one of them.
local function menu(wanted)
  local words, keys = {}, ""
  for number, item in ipairs(vim.fn.complete_info({ "items" }).items) do
    words[number] = item.word
    if item.word == wanted then
      keys = string.rep("<C-N>", number) .. "<C-Y>"
    end
  end
  table.sort(words)
  return words, keys
end

function actions.complete(wanted)
  local words, tries = {}, 60
  local function choose()
    tries = tries - 1
    if vim.fn.pumvisible() == 0 and tries > 0 then
      return vim.defer_fn(choose, 50)
    end
    local keys = ""
    if vim.fn.pumvisible() == 1 then
      words, keys = menu(wanted)
    end
    api.nvim_input(keys .. "<Esc>")
  end
  vim.defer_fn(choose, 50)
  api.nvim_feedkeys(api.nvim_replace_termcodes("i<C-X><C-O>", true, true, true), "tx!", false)
  return (#words > 0 and table.concat(words, " ") or "nothing") .. "\n" .. text()
end

function actions.definition()
  press("gd")
  return marked({ api.nvim_win_get_cursor(vim.fn.win_findbuf(buffer)[1]) })
end

function actions.references()
  press("grr")
  return marked(vim.tbl_map(function(item)
    return { item.lnum, item.col - 1 }
  end, vim.fn.getqflist()))
end

function actions.highlight()
  lsp.buf.document_highlight()
  settle()
  local places, names = {}, api.nvim_get_namespaces()
  for _, mark in ipairs(api.nvim_buf_get_extmarks(buffer, names.vim_lsp_references, 0, -1, { details = true })) do
    table.insert(places, { mark[2] + 1, mark[3] })
    table.insert(places, { mark[4].end_row + 1, mark[4].end_col })
  end
  return marked(places)
end

function actions.hover()
  press("K")
  for _, window in ipairs(api.nvim_list_wins()) do
    if api.nvim_win_get_config(window).relative ~= "" then
      local shown = api.nvim_buf_get_lines(api.nvim_win_get_buf(window), 0, -1, true)
      return vim.trim(table.concat(shown, "\n"))
    end
  end
  return "nothing"
end

function actions.outline()
  press("gO")
  local shown = vim.tbl_map(function(item)
    return item.lnum .. " " .. item.text:gsub("^%[.-%] ", "")
  end, vim.fn.getqflist())
  return table.concat(shown, "\n")
end

function actions.problems()
  settle()
  local shown = problems()
  return #shown > 0 and table.concat(shown, "\n") or "nothing"
end

local function open(case)
  vim.cmd("silent! cclose | silent! only!")
  vim.cmd("edit " .. vim.fn.fnameescape(case.file))
  buffer, notices = api.nvim_get_current_buf(), {}
  vim.fn.setqflist({})
  assert(vim.wait(60000, function()
    return next(lsp.buf_get_clients(buffer)) ~= nil
  end))
  local line = lines()[case.line + 1]
  api.nvim_win_set_cursor(0, { case.line + 1, vim.str_byteindex(line, case.column) })
end

local function shown(case)
  local action = actions[case.action]
  if action == nil then
    return vim.NIL
  end
  open(case)
  local ok, result = pcall(action, case.argument)
  return ok and result or "failed: " .. tostring(result)
end

local function run()
  local tasks = io.open(env.TRY_LOG .. "/cases.json"):read("*a")
  local file = io.open(env.TRY_LOG .. "/shown.json", "w")
  file:write(vim.json.encode(vim.tbl_map(shown, vim.json.decode(tasks))))
  file:close()
  vim.tbl_map(function(client)
    client.stop()
  end, lsp.get_active_clients())
  assert(vim.wait(60000, function()
    return #lsp.get_active_clients() == 0
  end))
end

local ok, why = pcall(run)
if not ok then
  io.stderr:write(tostring(why) .. "\n")
end
vim.cmd(ok and "qall!" or "cquit 1")
