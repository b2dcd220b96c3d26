" Drive scripts: by their ending, or a text whose first line starts as one.
autocmd BufRead,BufNewFile *.drive setfiletype drive
autocmd BufRead *.txt if getline(1) =~? '^ *( *\(type\|var\|proc\|main\)\>' | set filetype=drive | endif
