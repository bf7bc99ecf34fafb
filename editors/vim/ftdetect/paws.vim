autocmd BufNewFile,BufRead *.paws setfiletype paws
