autocmd BufNewFile,BufRead *.bq setfiletype bq
