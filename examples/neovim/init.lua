-- Starts `srb lsp` for Ruby files, with the folder in which Neovim was started as the project. `srb` is on the PATH.
local started = nil

-- The encodings of positions that the server may choose from, the best one first: Neovim counts bytes itself. Newer releases list them
-- without being told.
local encodings = vim.g.srb_encodings or { "utf-8", "utf-16" }

vim.api.nvim_create_autocmd("FileType", {
  pattern = "ruby",
  callback = function(event)
    local folder = vim.fn.getcwd()
    local capabilities = vim.lsp.protocol.make_client_capabilities()
    capabilities.general = vim.tbl_extend("force", capabilities.general or {}, { positionEncodings = encodings })
    local config = {
      name = "srb",
      cmd = { "srb", "lsp", folder },
      root_dir = folder,
      capabilities = capabilities,
      on_init = function(client, result)
        client.offset_encoding = result.capabilities.positionEncoding
      end,
    }
    if vim.lsp.start then -- from Neovim 0.8 on
      vim.lsp.start(config)
    else
      started = started or vim.lsp.start_client(config)
      vim.lsp.buf_attach_client(event.buf, started)
    end
  end,
})
