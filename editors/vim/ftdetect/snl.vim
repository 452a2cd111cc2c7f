" scripts/editors makes this file.
autocmd BufRead,BufNewFile *.st setfiletype snl
