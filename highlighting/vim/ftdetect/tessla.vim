autocmd BufRead,BufNewFile *.tsl setfiletype tessla
