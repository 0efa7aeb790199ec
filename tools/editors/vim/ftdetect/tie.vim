autocmd BufNewFile,BufRead *.tie setfiletype tie
