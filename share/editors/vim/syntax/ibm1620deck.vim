" Made by bin/operation-places from share/operations.txt; it also looks whether the two agree.
if exists("b:current_syntax") | finish | endif
syn match deckBad /\v[^] 0123456789JKLMNOPQR|!@*}"ABCDEFGHI\/STUVWXYZ+.)$,(=-]/
hi def link deckBad Error
syn match deckFlagged /\v[]J-R!*"]/
hi def link deckFlagged Special
syn match deckMark /\v[|}]/
hi def link deckMark Statement
syn match deckTooLong /\v%81c.*/
hi def link deckTooLong Error
let b:current_syntax = "ibm1620deck"
