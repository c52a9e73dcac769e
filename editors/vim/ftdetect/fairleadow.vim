" A scenario has its own ending. A chart in the notation is a text whose first statement begins like one.
autocmd BufNewFile,BufRead *.scenario setfiletype fairleadow-scenario
autocmd BufRead *.txt if getline(nextnonblank(match(getline(1, '$'), '^\s*[^#[:space:]]') + 1)) =~# '^\s*\(condition\|output\|scheme\)\s\+\d' | set filetype=fairleadow | endif
