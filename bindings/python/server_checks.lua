-- Types the text $TYPED in neovim, a character at a time, and writes to the file $FOUND, as JSON, the text after each and what the language
-- server then shows.
local buffer, shown, steps = vim.api.nvim_get_current_buf(), {}, {}
local client = vim.lsp.start_client({
  cmd = { 'python3', '-B', '-m', 'bajofeki_server' },
  flags = { debounce_text_changes = 0 },
  get_language_id = function() return 'bajofeki' end,
  handlers = { ['textDocument/publishDiagnostics'] = function(_, result) shown[result.version] = result.diagnostics end },
})
vim.bo[buffer].fixendofline = false
vim.lsp.buf_attach_client(buffer, client)
vim.wait(10000, function() return next(shown) ~= nil end, 1)
for _, typed in ipairs(vim.fn.split(vim.env.TYPED, '\\zs')) do
  local row = vim.api.nvim_buf_line_count(buffer) - 1
  local column = #vim.api.nvim_buf_get_lines(buffer, row, row + 1, true)[1]
  vim.api.nvim_buf_set_text(buffer, row, column, row, column, typed == '\n' and { '', '' } or { typed })
  vim.wait(10000, function() return shown[vim.lsp.util.buf_versions[buffer]] ~= nil end, 1)
  local text = table.concat(vim.api.nvim_buf_get_lines(buffer, 0, -1, true), '\n')
  local found = shown[vim.lsp.util.buf_versions[buffer]]
  table.insert(steps, { text, #found > 0 and found or vim.fn.json_decode('[]') })
end
vim.fn.writefile({ vim.fn.json_encode(steps) }, vim.env.FOUND)
