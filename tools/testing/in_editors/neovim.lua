-- Neovim with editors/vim and editors/neovim: nvim --headless -u NONE --cmd 'luafile tools/testing/in_editors/neovim.lua'
-- Each token of the examples has its group, and the keys step forwards and back. The files are named by the environment; the status is 0 where
-- all of this came. In place of the plugin nvim-dap, which the system's packages have not, stands a client that reads what that plugin reads.

local root, program, examples = vim.env.EDITORS, vim.env.RINDDECADE, vim.env.EXAMPLES

local function say(text)
  io.stdout:write(text, "\n")
end

local function need(holds, what)
  say((holds and "came: " or "did not come: ") .. what)
  if not holds then vim.cmd("cquit 1") end
end

-- ---- the client

local session
local breakpoints = {}
local dap = { adapters = {}, configurations = {} }

local function take(text)
  session.rest = session.rest .. text
  while true do
    local head, size = session.rest:match("^(Content%-Length: (%d+)\r\n\r\n)")
    if not head or #session.rest < #head + size then return end
    local message = vim.json.decode(session.rest:sub(#head + 1, #head + size))
    session.rest = session.rest:sub(#head + size + 1)
    local list = message.type == "event" and session.events or session.answers
    list[message.event or message.request_seq] = message
  end
end

local function send(command, arguments)
  session.sent = session.sent + 1
  local message = { seq = session.sent, type = "request", command = command, arguments = arguments or vim.empty_dict() }
  local text = vim.json.encode(message)
  vim.fn.chansend(session.channel, ("Content-Length: %d\r\n\r\n%s"):format(#text, text))
  return session.sent
end

local function wait(list, key)
  vim.wait(60000, function() return session[list][key] ~= nil end, 10)
  local message = session[list][key]
  session[list][key] = nil
  if not message then need(false, ("%s %s"):format(list, key)) end
  return message
end

local function ask(command, arguments)
  local answer = wait("answers", send(command, arguments))
  need(answer.success, command)
  return answer.body or {}
end

local function stop()
  session.stopped = wait("events", "stopped").body
  local frame = ask("stackTrace", { threadId = 1 }).stackFrames[1]
  if frame then vim.api.nvim_win_set_cursor(0, { frame.line, frame.column - 1 }) end
end

local function begin()
  local adapter, launch = dap.adapters.rinddecade, {}
  for name, value in pairs(dap.configurations[vim.bo.filetype][1]) do
    launch[name] = value == "${file}" and vim.fn.expand("%:p") or value
  end
  need(adapter.type == "executable" and launch.type == "rinddecade", "an adapter that is started")
  session = { rest = "", sent = 0, events = {}, answers = {} }
  local on_stdout = function(_, lines) take(table.concat(lines, "\n")) end
  session.channel = vim.fn.jobstart({ adapter.command, unpack(adapter.args) }, { on_stdout = on_stdout })
  ask("initialize", { adapterID = "rinddecade", linesStartAt1 = true, columnsStartAt1 = true })
  ask(launch.request, launch)
  wait("events", "initialized")
  ask("setBreakpoints", { source = { path = launch.program }, breakpoints = breakpoints })
  ask("configurationDone")
  stop()
end

local function move(request)
  return function()
    ask(request, { threadId = 1 })
    stop()
  end
end

dap.step_over, dap.step_into, dap.step_out = move("next"), move("stepIn"), move("stepOut")
dap.step_back, dap.reverse_continue = move("stepBack"), move("reverseContinue")

function dap.continue()
  if session then move("continue")() else begin() end
end

function dap.toggle_breakpoint()
  table.insert(breakpoints, { line = vim.fn.line(".") })
  if session then ask("setBreakpoints", { source = { path = vim.fn.expand("%:p") }, breakpoints = breakpoints }) end
end

package.preload["dap"] = function() return dap end

-- ---- what is tried

local GROUPS = {
  comment = { ispcComment = true },
  control = { ispcConditional = true, ispcRepeat = true, ispcLabel = true, ispcStatement = true },
  foreach = { ispcForeach = true },
  ["function"] = { ispcFunction = true },
  lane = { ispcLane = true },
  library = { ispcLibrary = true },
  mark = { ispcOperator = true, [""] = true },
  modifier = { ispcModifier = true },
  name = { [""] = true },
  number = { ispcNumber = true },
  rate = { ispcRate = true },
  truth = { ispcBoolean = true },
  type = { ispcType = true },
}

local function wrong_groups(tokens)
  local wrong = {}
  for _, token in ipairs(tokens) do
    local name = vim.fn.synIDattr(vim.fn.synID(token.line, token.column, 1), "name")
    if not GROUPS[token.kind][name] then
      table.insert(wrong, ("%d:%d is a %s, and %s"):format(token.line, token.column, token.kind, name))
    end
  end
  return wrong
end

-- Whether the lines of a buffer are indented as they are.
local function keeps_indentation()
  local before = vim.api.nvim_buf_get_lines(0, 0, -1, true)
  vim.bo.shiftwidth, vim.bo.expandtab = 4, true
  vim.cmd("silent %left | silent normal! gg=G")
  local after = vim.api.nvim_buf_get_lines(0, 0, -1, true)
  vim.cmd("edit!")
  return vim.deep_equal(before, after)
end

local function press(key)
  vim.api.nvim_feedkeys(vim.api.nvim_replace_termcodes(key, true, true, true), "x", false)
end

local function stands_at(line, what)
  need(vim.fn.line(".") == line, ("line %d: %s"):format(line, what))
end

local function shows(expression, wanted)
  local found = ask("evaluate", { expression = expression, context = "hover" }).result
  need(found == wanted, ("%s is %s"):format(expression, found))
end

-- Without the plugin the user is told so, and no key is set.
local function tells_what_is_missing()
  local preload, notify, told = package.preload["dap"], vim.notify, ""
  package.preload["dap"] = nil
  vim.notify = function(text) told = text end
  require("rinddecade").setup({ path = program })
  vim.notify, package.preload["dap"] = notify, preload
  require("rinddecade").map_keys(vim.api.nvim_get_current_buf())
  need(told:find("the plugin nvim-dap is not there", 1, true) and vim.fn.maparg("<F5>", "n") == "", "that the plugin is not there")
end

local function try()
  vim.opt.runtimepath:append(root .. "/vim")
  vim.opt.runtimepath:append(root .. "/neovim")
  tells_what_is_missing()
  require("rinddecade").setup({ path = program, width = 4, keys = true })
  vim.cmd("filetype plugin indent on | syntax on")
  for name, tokens in pairs(vim.json.decode(table.concat(vim.fn.readfile(vim.env.TOKENS)))) do
    vim.cmd("edit " .. examples .. "/" .. name)
    local wrong = wrong_groups(tokens)
    need(vim.bo.filetype == "ispc" and #wrong == 0, table.concat({ "the groups of " .. name, unpack(wrong) }, "\n  "))
    need(keeps_indentation(), "the indentation of " .. name)
  end
  vim.cmd("edit " .. examples .. "/lanes.ispc")
  press("<F5>")
  stands_at(2, "the entry")
  press("<F10>")
  stands_at(3, "a step over")
  press("<F11>")
  stands_at(4, "a step into")
  press("<S-F10>")
  stands_at(3, "a step back")
  press("5G<F9><F5>")
  stands_at(5, "the breakpoint")
  shows("x", "1 1 1 1")
  shows("x + 1", "2 2 2 2")
  press("<F22>")
  stands_at(4, "a step back")
  shows("x[3]", "0")
  press("<S-F5>")
  stands_at(2, "the beginning, reached backwards")
end

local ended, why = pcall(try)
need(ended, ended and "all" or tostring(why))
vim.cmd("qall!")
