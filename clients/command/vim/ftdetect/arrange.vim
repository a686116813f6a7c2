" Scripts of the program arrange.
autocmd BufRead,BufNewFile *.arr setfiletype arrange
