-- Sources of ISPC in the plugin nvim-dap: `require("rinddecade").setup({ path = "/path/to/rinddecade" })`.
local M = {}

-- What each key does, by the names of nvim-dap's functions. A terminal that has no key with shift sends the one that is 12 further.
local KEYS = {
  { "<F5>", "continue" },
  { "<S-F5>", "reverse_continue" },
  { "<F17>", "reverse_continue" },
  { "<F9>", "toggle_breakpoint" },
  { "<F10>", "step_over" },
  { "<S-F10>", "step_back" },
  { "<F22>", "step_back" },
  { "<F11>", "step_into" },
  { "<S-F11>", "step_out" },
  { "<F23>", "step_out" },
}

local options = { path = "rinddecade", width = 8, lane_threads = false, keys = true }

local function launch(name, more)
  local common = {
    type = "rinddecade",
    request = "launch",
    name = name,
    program = "${file}",
    width = options.width,
    laneThreads = options.lane_threads,
  }
  return vim.tbl_extend("force", common, more)
end

-- Asked for when a launch begins; nil where nothing is given.
local function input()
  local path = vim.fn.input("Input, if any: ", "", "file")
  return path ~= "" and vim.fn.fnamemodify(path, ":p") or nil
end

local function entry()
  local name = vim.fn.input("Entry, the first function if empty: ")
  return name ~= "" and name or nil
end

--- Tells nvim-dap of the program and of its launches. `keys = false` leaves the keys as they are.
function M.setup(given)
  options = vim.tbl_extend("force", options, given or {})
  local is_there, dap = pcall(require, "dap")
  if not is_there then
    options.keys = false
    vim.notify("rinddecade: the plugin nvim-dap is not there, which runs sources; they have colours all the same", vim.log.levels.WARN)
    return
  end
  dap.adapters.rinddecade = { type = "executable", command = vim.fn.expand(options.path), args = { "adapter" } }
  dap.configurations.ispc = { launch("This source", {}), launch("This source, asked for input and entry", { input = input, entry = entry }) }
end

--- The keys in a buffer of a source.
function M.map_keys(buffer)
  for _, row in ipairs(options.keys and KEYS or {}) do
    local key, call = row[1], row[2]
    vim.keymap.set("n", key, function() require("dap")[call]() end, { buffer = buffer, desc = "dap: " .. call })
  end
end

return M
