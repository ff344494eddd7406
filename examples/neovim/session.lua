-- A session of Neovim with `srb lsp`, in a folder with the wrong file `a.rb`: its error is shown, it follows an edit, and it
-- goes with it. Its places are right beside characters of 1 to 4 bytes. Ends with status 0 where all was seen.
local function fail(what)
  io.stderr:write("not seen: " .. what .. "\n")
  vim.cmd("cquit 1")
end

-- Waits until just these messages are shown of the buffer.
local function shows(what, messages)
  local function same()
    local shown = {}
    for _, diagnostic in ipairs(vim.diagnostic.get(0)) do
      table.insert(shown, diagnostic.message)
    end
    return vim.deep_equal(shown, messages)
  end
  if not vim.wait(10000, same, 10) then
    fail(what .. ": " .. vim.inspect(vim.diagnostic.get(0)))
  end
  io.stdout:write(what .. ": " .. vim.inspect(messages) .. "\n")
end

-- Says where the one error of the buffer stands, in bytes.
local function stands(from, to)
  local shown = vim.diagnostic.get(0)[1]
  if shown.lnum ~= 1 or shown.col ~= from or shown.end_col ~= to then
    fail("an error from " .. from .. " to " .. to .. ": " .. vim.inspect(shown))
  end
end

local function second_line(text)
  vim.api.nvim_buf_set_lines(0, 1, 2, false, { text })
end

vim.cmd("filetype on")
vim.cmd("edit a.rb")
shows("opened", { "expected Integer, found String" })
second_line("x = T.let(1, NilClass)")
shows("edited", { "expected NilClass, found Integer" })
second_line("x = T.let(1, Integer)")
shows("mended", {})
second_line("x = T.reveal_type(nil)")
shows("asked", { "type is NilClass" })
second_line("x = T.let(1")
shows("unended", { "syntax error" })
second_line("x = /😀/")
shows("outside", { "outside the profile" })
second_line('"a".lenght')
shows("misspelled", { "method lenght does not exist on String" })
second_line('x = T.let("é€😀", Integer)')
shows("wide", { "expected Integer, found String" })
stands(10, 21)
second_line('x = T.let("é€😀", NilClass)')
shows("changed after it", { "expected NilClass, found String" })
stands(10, 21)
second_line("nil")
shows("gone", {})
io.stdout:write("positions: " .. vim.lsp.get_active_clients()[1].offset_encoding .. "\n")
vim.cmd("qall!")
