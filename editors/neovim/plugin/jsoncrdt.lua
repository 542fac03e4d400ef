-- Read at the start of Neovim, where editors/neovim is on the runtime path.
vim.api.nvim_create_autocmd({ "BufRead", "BufNewFile" }, {
  pattern = "*.jsoncrdt",
  callback = function(event) vim.bo[event.buf].filetype = "jsoncrdt" end,
})
require("jsoncrdt").setup()
