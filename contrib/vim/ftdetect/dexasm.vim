" Listings of dexasm: files *.dex.txt, and those whose first line is theirs.
autocmd BufNewFile,BufRead *.dex.txt set filetype=dexasm
autocmd BufNewFile,BufRead *.txt if getline(1) =~# '^\s*dex 035\>' | set filetype=dexasm | endif
