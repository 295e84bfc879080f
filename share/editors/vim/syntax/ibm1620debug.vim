" Made by bin/operation-places from share/operations.txt; it also looks whether the two agree.
if exists("b:current_syntax") | finish | endif
syn keyword ibm1620debugWord GO STEP BACK BREAK CLEAR SHOW QUIT
hi def link ibm1620debugWord Statement
syn match ibm1620debugNumber /\v<\d{1,15}>/
hi def link ibm1620debugNumber Number
syn match ibm1620debugBad /\v[a-z]+|  +|^ | $/
hi def link ibm1620debugBad Error
let b:current_syntax = "ibm1620debug"
