autocmd BufNewFile,BufRead *.sky setfiletype sky
