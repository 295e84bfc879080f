" Made by bin/operation-places from share/operations.txt; it also looks whether the two agree.
au BufRead,BufNewFile *.sps,source.txt set filetype=sps
au BufRead,BufNewFile *.deck,deck.txt set filetype=ibm1620deck
au BufRead,BufNewFile *.script1620,script.txt set filetype=ibm1620script
au BufRead,BufNewFile *.debug1620,commands.txt set filetype=ibm1620debug
au BufRead *.txt if search('\v^.{5}[A-Z0-9 ]{6}DEND', 'nw') | set filetype=sps | endif
