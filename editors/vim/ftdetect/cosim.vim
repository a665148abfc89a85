" A file with the end .cosim is a model.
autocmd BufRead,BufNewFile *.cosim setfiletype cosim
