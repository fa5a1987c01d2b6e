autocmd BufRead,BufNewFile *.il set filetype=liftplc
autocmd BufRead,BufNewFile *.st set filetype=liftplc_st
