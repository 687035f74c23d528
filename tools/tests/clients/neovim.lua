-- Neovim's own client with vsm-lsp, by the configuration of docs/EDITORS.md. FILES lists scripts, each with what a
-- listing says of it in a file .wanted next to it.
local wrong = 0
local function check(what, is_right, seen)
  if not is_right then wrong = wrong + 1 end
  io.stdout:write((is_right and 'right ' or 'WRONG ') .. what .. (seen and (': ' .. tostring(seen)) or '') .. '\n')
end
local function wait(what, does)
  if not vim.wait(60000, does, 20) then check('waits for ' .. what, false) end
end

-- What counts is that the server has published of the text as it is.
local listed = {}
local base = vim.lsp.handlers['textDocument/publishDiagnostics']
vim.lsp.handlers['textDocument/publishDiagnostics'] = function(err, result, ...)
  listed[vim.uri_to_bufnr(result.uri)] = result.version
  return base(err, result, ...)
end
local function is_listed(buffer) return listed[buffer] == vim.lsp.util.buf_versions[buffer] end
local function open(path)
  vim.cmd('edit ' .. path)
  local buffer = vim.api.nvim_get_current_buf()
  wait('diagnostics of ' .. path, function() return listed[buffer] ~= nil and is_listed(buffer) end)
  return buffer
end
local function change(buffer, does)
  local before = listed[buffer]
  does()
  wait('diagnostics of a change', function() return listed[buffer] ~= before and is_listed(buffer) end)
end
local function set(buffer, first, last, lines)
  change(buffer, function() vim.api.nvim_buf_set_lines(buffer, first, last, false, lines) end)
end
local function cursor(line, column) vim.api.nvim_win_set_cursor(0, { line, column }) end
local function line(number) return vim.fn.getline(number) end

-- Columns are bytes in Neovim.
local places = 0
for path in vim.env.FILES:gmatch('%S+') do
  local found = {}
  local buffer = open(path)
  for _, it in ipairs(vim.diagnostic.get(buffer)) do
    if it.severity == vim.diagnostic.severity.ERROR then
      table.insert(found, string.format('%d:%d: %s', it.lnum + 1, it.col + 1, it.message))
    end
  end
  table.sort(found)
  local wanted = vim.fn.readfile(path .. '.wanted')
  table.sort(wanted)
  if not vim.deep_equal(found, wanted) then check(path, false, vim.inspect({ found, wanted })) end
  places = places + #found
end
check('faults are at the columns of a listing', places > 15, places)

local buffer = open(vim.env.EXAMPLES .. '/bytes-and-names.vsm')
local function hover(at_line, column)
  cursor(at_line, column)
  local before, text = #vim.api.nvim_list_wins(), ''
  vim.lsp.buf.hover()
  wait('a hover', function() return #vim.api.nvim_list_wins() > before end)
  for _, it in ipairs(vim.api.nvim_list_wins()) do
    if vim.api.nvim_win_get_config(it).relative ~= '' then
      text = table.concat(vim.api.nvim_buf_get_lines(vim.api.nvim_win_get_buf(it), 0, -1, false), '\n')
      vim.api.nvim_win_close(it, true)
    end
  end
  return text
end
check('hover on a name', hover(11, 6):match('P = 00006000 by line 5') ~= nil)
local text = hover(5, 3)
check('hover on an operation', text:match('RC=0 A=00006000') ~= nil and text:match('STORAGE OBTAIN,LENGTH=value') ~= nil)
check('hover on an operand', hover(5, 17):match('LENGTH: the number of bytes') ~= nil)

cursor(11, 6)
vim.lsp.buf.definition()
wait('the definition', function() return vim.api.nvim_win_get_cursor(0)[1] == 5 end)
check('definition', vim.api.nvim_win_get_cursor(0)[2] == 31)

vim.cmd('doautocmd <nomodeline> CursorHold')
wait('code lenses', function() return #(vim.lsp.codelens.get(buffer) or {}) > 5 end)
check('code lenses', vim.lsp.codelens.get(buffer)[1].command.title:match('^%-> RC=0 A=00006000') ~= nil)

set(buffer, 5, 5, { ' STORAGE OBTAIN,LENGTH=8,AD', ' PEEK ', ' STORAGE OBTAIN,LENGTH=8,LOC=' })
local function completed(at_line)
  cursor(at_line, #line(at_line))
  vim.cmd('startinsert!')
  local words, params = {}, vim.lsp.util.make_position_params(0, 'utf-16')
  params.position.character = #line(at_line)
  for _, found in pairs(vim.lsp.buf_request_sync(buffer, 'textDocument/completion', params, 10000)) do
    for _, it in ipairs(vim.lsp.util.text_document_completion_list_to_complete_items(found.result, '')) do
      table.insert(words, it.word)
    end
  end
  vim.cmd('stopinsert')
  return table.concat(words, ' ')
end
check('completion of a keyword', completed(6) == 'ADDR=', completed(6))
check('completion of a name', completed(7) == 'P', completed(7))
check('completion of values', completed(8) == 'BELOW 24 ANY 31 RES', completed(8))
check('the configuration sets omnifunc', vim.bo[buffer].omnifunc == 'v:lua.vim.lsp.omnifunc')

-- What a check finds comes after the listing.
local overlay = open(vim.env.EXAMPLES .. '/overlay.vsm')
local function found(text)
  for _, it in ipairs(vim.diagnostic.get(overlay)) do
    if it.message:match('^' .. text) then return it end
  end
end
wait('a check', function() return found('OUTSIDE: ') end)
local outside, left = found('OUTSIDE: '), found('LEFT: ')
check('bytes outside an area', outside.lnum == 3 and outside.col == 6
  and outside.severity == vim.diagnostic.severity.WARN, outside.message)
check('an area that is left', left.lnum == 0 and left.severity == vim.diagnostic.severity.HINT, left.message)
vim.api.nvim_set_current_buf(buffer)

-- Typing: letters of two, three and four bytes before a fault, and changes in the middle of such lines.
set(buffer, 0, -1, { " STORAGE OBTAIN,RELATED='é€😀',FOO=1,LENGTH=8", ' MAP', '' })
local function faults() return vim.diagnostic.get(buffer, { severity = vim.diagnostic.severity.ERROR }) end
local function marked()
  local found = faults()
  return #found == 1 and line(found[1].lnum + 1):sub(found[1].col + 1, found[1].end_col) or #found
end
check('a fault after é€😀', marked() == 'FOO=1', marked())
change(buffer, function() vim.api.nvim_buf_set_text(buffer, 0, 25, 0, 30, { '€' }) end)
check('a change after é', line(1) == " STORAGE OBTAIN,RELATED='€😀',FOO=1,LENGTH=8" or line(1):match('FOO') ~= nil and marked() == 'FOO=1', marked())

set(buffer, 0, -1, { ' STORAGE OBTAIN,LENGHT=8' })
vim.ui.select = function(items, _, choose) choose(items[1], 1) end
cursor(1, 17)
change(buffer, function()
  vim.lsp.buf.code_action()
  wait('a code action', function() return line(1) == ' STORAGE OBTAIN,LENGTH=8' end)
end)
check('a code action', #faults() == 0, line(1))

set(buffer, 0, -1, { ' STORAGE OBTAIN,LENGTH=8,ADDR=P,' .. (' '):rep(39) .. 'X', '               SP=1', ' POKE P,A(P)' })
cursor(3, 6)
change(buffer, function()
  vim.lsp.buf.rename('TABLE')
  wait('a new name', function() return line(3) == ' POKE TABLE,A(TABLE)' end)
end)
check('rename', line(1) == ' STORAGE OBTAIN,LENGTH=8,ADDR=TABLE,' .. (' '):rep(35) .. 'X', line(1))
check('no fault comes of it', #faults() == 0)

vim.lsp.stop_client(vim.lsp.get_active_clients())
wait('the end of the server', function() return #vim.lsp.get_active_clients() == 0 end)
io.stdout:write(wrong .. ' wrong\n')
vim.cmd(wrong == 0 and 'qall!' or 'cquit!')
