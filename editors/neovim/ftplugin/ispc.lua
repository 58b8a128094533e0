require("rinddecade").map_keys(vim.api.nvim_get_current_buf())
