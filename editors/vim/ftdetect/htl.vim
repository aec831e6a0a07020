autocmd BufRead,BufNewFile *.htl setfiletype htl
