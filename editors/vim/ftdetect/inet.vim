autocmd BufNewFile,BufRead *.inet setfiletype inet
