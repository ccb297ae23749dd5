-- What a writer does in neovim, by keys, and what is seen then. Written to standard output.

local function say(line)
    io.stdout:write(line, '\n')
end

local function fail(why)
    say('failed: ' .. why)
    vim.cmd('cquit!')
end

-- Waits until something is so.
local function wait(what, is_so)
    if not vim.wait(20000, is_so, 10) then
        fail(what)
    end
end

local function type_keys(keys)
    vim.api.nvim_feedkeys(vim.api.nvim_replace_termcodes(keys, true, false, true), 'x', false)
end

local function show_diagnostics()
    local found = vim.diagnostic.get(0)
    say(#found .. ' diagnostic' .. (#found == 1 and '' or 's'))
    for _, one in ipairs(found) do
        local code = one.user_data.lsp.code
        say(string.format('%d:%d: %s [%s %s]', one.lnum + 1, one.col + 1, one.message, one.source, code))
        for _, note in ipairs(one.user_data.lsp.relatedInformation or {}) do
            say(string.format('  %d: %s', note.location.range.start.line + 1, note.message))
        end
    end
end

-- The screen, line by line.
local function show_screen()
    vim.cmd('redraw!')
    for row = 1, vim.o.lines - 2 do
        local cells = {}
        for column = 1, vim.o.columns do
            cells[column] = vim.fn.screenstring(row, column)
        end
        say('| ' .. table.concat(cells):gsub('%s+$', ''))
    end
end

-- The window that a hover opens.
local function hover_lines()
    for _, window in ipairs(vim.api.nvim_list_wins()) do
        if vim.api.nvim_win_get_config(window).relative ~= '' then
            return vim.api.nvim_buf_get_lines(vim.api.nvim_win_get_buf(window), 0, -1, true)
        end
    end
end

-- The writer takes the first fix of the menu.
vim.ui.select = function(items, options, choose)
    for number, item in ipairs(items) do
        say('menu ' .. number .. ': ' .. options.format_item(item))
    end
    choose(items[1], 1)
end

wait('no diagnostics came', function() return #vim.diagnostic.get(0) > 0 end)
say('## second_club.c is opened')
vim.o.columns, vim.o.lines = 110, 16
show_screen()
show_diagnostics()

say('## K on line 8')
type_keys('8GwK')
wait('no hover came', function() return hover_lines() ~= nil end)
for number, line in ipairs(hover_lines()) do
    if number <= 3 then
        say('  ' .. line)
    end
end
type_keys('<Esc>')

say('## the quick fix on line 8')
type_keys('8Ggra')
wait('the diagnostics stay', function() return #vim.diagnostic.get(0) == 0 end)
show_screen()
show_diagnostics()

say('## the check on line 8 is taken out')
type_keys('8Gdd')
wait('no diagnostics came', function() return #vim.diagnostic.get(0) > 0 end)
show_diagnostics()

say('## and put back')
type_keys('8GP')
wait('the diagnostics stay', function() return #vim.diagnostic.get(0) == 0 end)
show_diagnostics()

say('## the outline')
type_keys('gO')
wait('no outline came', function() return #vim.fn.getqflist() > 0 or #vim.fn.getloclist(0) > 0 end)
local listed = vim.fn.getqflist()
if #listed == 0 then
    listed = vim.fn.getloclist(0)
end
for _, item in ipairs(listed) do
    say(string.format('%d:%d: %s', item.lnum, item.col, item.text))
end
vim.cmd('qall!')
