autocmd BufRead,BufNewFile *.tal setfiletype uxntal
