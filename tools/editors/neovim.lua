-- Asks the language server as Neovim does, headless: a diagnostic, an unsaved edit, a quick fix, the end. Run by test.sh in a folder with index.ts.
local root = vim.fn.getcwd()
local client = vim.lsp.start_client({ name = 'nagdrez', cmd = vim.split(vim.env.SERVER, ' '), root_dir = root })
vim.cmd('edit ' .. root .. '/index.ts')
vim.lsp.buf_attach_client(0, client)

local function wait_for(count, what)
  if not vim.wait(30000, function() return #vim.diagnostic.get(0) == count end, 20) then
    print('FAILED: ' .. what .. ': ' .. vim.inspect(vim.diagnostic.get(0)))
    vim.cmd('cquit')
  end
  print(what)
end

wait_for(1, 'a diagnostic')
vim.api.nvim_buf_set_lines(0, 1, 1, false, { 'export function slow() { return Math.random(); }' })
wait_for(2, 'an unsaved edit')
local params = { textDocument = vim.lsp.util.make_text_document_params(), range = { start = { line = 1, character = 18 }, ['end'] = { line = 1, character = 18 } }, context = { diagnostics = {} } }
local answers = vim.lsp.buf_request_sync(0, 'textDocument/codeAction', params, 30000)
local action = answers[client].result[1]
local resolved = action.edit and action or vim.lsp.buf_request_sync(0, 'codeAction/resolve', action, 30000)[client].result
vim.lsp.util.apply_workspace_edit(resolved.edit, 'utf-16')
if vim.api.nvim_buf_get_lines(0, 1, 2, false)[1] ~= 'export function slow(): number { return Math.random(); }' then
  print('FAILED: ' .. vim.inspect(vim.api.nvim_buf_get_lines(0, 0, -1, false)))
  vim.cmd('cquit')
end
print(action.title)
wait_for(1, 'the fix')
vim.lsp.stop_client(client)
if not vim.wait(10000, function() return vim.lsp.client_is_stopped(client) end, 20) then vim.cmd('cquit') end
print('the end')
vim.cmd('qall!')
