-- Edits files in Neovim with `ecma lsp` as its server, and says how that went. Run by hand: Neovim 0.7 or later.
--
--     ECMA=path/to/ecma FILES='a.js b.js' nvim --headless -u NONE -c 'luafile tests/lsp_nvim.lua'
--
-- Of each file: its faults are shown, a `(` is put in front and taken away, it is laid out, and the first name that it binds is looked at (hover, definition, references,
-- highlights), and renamed, and back; folds, selections and semantic tokens are asked for, too. Prints how long each took; fails where an answer doesn't come, or the text
-- isn't what it was in the end.
local ecma = os.getenv('ECMA')
local files = vim.split(os.getenv('FILES'), ' ')
local published = {}
local handler = vim.lsp.handlers['textDocument/publishDiagnostics']
vim.lsp.handlers['textDocument/publishDiagnostics'] = function(err, result, context, config)
  published[result.uri] = result
  return handler(err, result, context, config)
end

local function fail(said)
  io.write(said .. '\n')
  vim.cmd('cquit 1')
end

local function now()
  return vim.loop.hrtime() / 1e6
end

-- Waits for the faults of the text as it is now.
local function faults(buffer, what)
  local uri, start = vim.uri_from_bufnr(buffer), now()
  local version = vim.lsp.util.buf_versions[buffer]
  local came = vim.wait(20000, function()
    return published[uri] and published[uri].version and published[uri].version >= version
  end, 2)
  if not came then
    fail(what .. ': no diagnostics came')
  end
  return #published[uri].diagnostics, now() - start
end

local function request(client, buffer, method, params)
  local start = now()
  local answer = client.request_sync(method, params, 60000, buffer)
  if not answer or answer.err then
    return nil, answer and answer.err and answer.err.message or 'no answer'
  end
  return answer.result, now() - start
end

local function text(buffer)
  return table.concat(vim.api.nvim_buf_get_lines(buffer, 0, -1, false), '\n')
end

local function try(file)
  vim.cmd('edit ' .. file)
  local buffer = vim.api.nvim_get_current_buf()
  local id = vim.lsp.start_client({ name = 'ecma', cmd = { ecma, 'lsp' }, flags = { debounce_text_changes = 0 } })
  vim.lsp.buf_attach_client(buffer, id)
  local client = vim.lsp.get_client_by_id(id)
  if not vim.wait(10000, function() return client.initialized end, 5) then
    fail('the server does not answer')
  end
  local before = text(buffer)
  local count = faults(buffer, 'open')
  vim.api.nvim_buf_set_text(buffer, 0, 0, 0, 0, { '(' })
  local more, took = faults(buffer, 'a change')
  vim.api.nvim_buf_set_text(buffer, 0, 0, 0, 1, { '' })
  local again, took_again = faults(buffer, 'a change back')
  if more == 0 or again ~= count or text(buffer) ~= before then
    fail(string.format('%s: %d faults, then %d, then %d', file, count, more, again))
  end
  io.write(string.format('%s: %d bytes, faults after a change %.0f and %.0f ms', file, #before, took, took_again))
  local document = { uri = vim.uri_from_bufnr(buffer) }
  local edits, layout = request(client, buffer, 'textDocument/formatting', { textDocument = document, options = { tabSize = 2, insertSpaces = true } })
  if not edits then
    fail(': no layout: ' .. layout)
  end
  vim.lsp.util.apply_text_edits(edits, buffer, 'utf-16')
  local laid_out = text(buffer)
  edits = request(client, buffer, 'textDocument/formatting', { textDocument = document, options = { tabSize = 2, insertSpaces = true } })
  if #edits ~= 0 then
    fail(': a layout that is not its own layout')
  end
  io.write(string.format(', layout %.0f', layout))
  local symbols, listing = request(client, buffer, 'textDocument/documentSymbol', { textDocument = document })
  io.write(string.format(', %d symbols %.0f', #symbols, listing))
  local place = symbols[1].selectionRange.start
  local at = { textDocument = document, position = place, context = { includeDeclaration = true }, positions = { place } }
  for _, method in ipairs({ 'hover', 'definition', 'references', 'documentHighlight', 'foldingRange', 'selectionRange', 'semanticTokens/full' }) do
    local answer, how_long = request(client, buffer, 'textDocument/' .. method, at)
    if answer == nil or answer == vim.NIL then
      fail(': no answer to ' .. method .. ': ' .. tostring(how_long))
    end
    io.write(string.format(', %s %.0f', method, how_long))
  end
  local renamed, rename = request(client, buffer, 'textDocument/rename', { textDocument = document, position = place, newName = 'renamed_by_this_test' })
  if not renamed then
    fail(': no other name: ' .. rename)
  end
  vim.lsp.util.apply_workspace_edit(renamed, 'utf-16')
  local back = request(client, buffer, 'textDocument/rename', { textDocument = document, position = place, newName = symbols[1].name })
  if not back then
    fail(': no name back')
  end
  vim.lsp.util.apply_workspace_edit(back, 'utf-16')
  io.write(string.format(', another name %.0f ms\n', rename))
  if text(buffer) ~= laid_out then
    io.write('  (a shorthand was spelled out)\n')
  end
  vim.lsp.stop_client(id)
  if not vim.wait(10000, function() return not vim.lsp.get_client_by_id(id) end, 5) then
    fail('the server does not end')
  end
  vim.cmd('bwipeout!')
end

vim.o.swapfile = false
for _, file in ipairs(files) do
  local went, why = pcall(try, file)
  if not went then
    fail(file .. ': ' .. tostring(why))
  end
end
vim.cmd('qall!')
