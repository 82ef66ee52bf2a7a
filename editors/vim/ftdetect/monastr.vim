autocmd BufRead,BufNewFile *.mona setfiletype monastr
