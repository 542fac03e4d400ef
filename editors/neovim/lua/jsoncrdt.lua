-- Starts tools/lsp for scenarios, and tells nvim-dap of tools/dap, where that is installed.
local M = {}

-- The repository: this file is editors/neovim/lua/jsoncrdt.lua in it.
M.root = vim.fn.fnamemodify(vim.loop.fs_realpath(debug.getinfo(1, "S").source:sub(2)), ":h:h:h:h")

local function on_attach(_, buffer)
  vim.bo[buffer].omnifunc = "v:lua.vim.lsp.omnifunc"
  local maps = { K = vim.lsp.buf.hover, gd = vim.lsp.buf.definition, ["<leader>a"] = vim.lsp.buf.code_action }
  for keys, action in pairs(maps) do
    vim.keymap.set("n", keys, action, { buffer = buffer })
  end
end

-- Attaches the server to a buffer; one serves all.
function M.attach(buffer)
  M.client = M.client or vim.lsp.start_client({
    name = "jsoncrdt",
    cmd = { M.root .. "/tools/lsp" },
    on_attach = on_attach,
    on_exit = function() M.client = nil end,
  })
  vim.lsp.buf_attach_client(buffer, M.client)
end

function M.setup()
  vim.api.nvim_create_autocmd("FileType", {
    pattern = "jsoncrdt",
    callback = function(event) M.attach(event.buf) end,
  })
  local found, dap = pcall(require, "dap")
  if found then
    dap.adapters.jsoncrdt = { type = "executable", command = M.root .. "/tools/dap" }
    dap.configurations.jsoncrdt = {
      { type = "jsoncrdt", request = "launch", name = "Debug the scenario", program = "${file}" },
    }
  end
end

return M
