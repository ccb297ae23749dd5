-- For init.lua of neovim, 0.7 or later: the server for all C files of a folder `routines`.

local server

vim.api.nvim_create_autocmd({ 'BufReadPost', 'BufNewFile' }, {
    pattern = '*/routines/*.c',
    callback = function(event)
        server = server or vim.lsp.start_client({ name = 'mizzengrape', cmd = { 'mizzengrape', 'lsp' } })
        vim.lsp.buf_attach_client(event.buf, server)
        local keys = { K = vim.lsp.buf.hover, gra = vim.lsp.buf.code_action, gO = vim.lsp.buf.document_symbol }
        for key, does in pairs(keys) do
            vim.keymap.set('n', key, function() does() end, { buffer = event.buf })
        end
    end,
})
