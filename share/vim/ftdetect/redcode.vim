" The names of files that are Redcode.
autocmd BufNewFile,BufRead *.red setfiletype redcode
