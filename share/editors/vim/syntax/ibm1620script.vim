" Made by bin/operation-places from share/operations.txt; it also looks whether the two agree.
if exists("b:current_syntax") | finish | endif
syn keyword ibm1620scriptWord AT HALT START LOAD SWITCH ON OFF OVERFLOW STOP PROGRAM IO FLIP
hi def link ibm1620scriptWord Statement
syn match ibm1620scriptNumber /\v<\d{1,15}>/
hi def link ibm1620scriptNumber Number
syn match ibm1620scriptBad /\v[a-z]+|  +|^ | $/
hi def link ibm1620scriptBad Error
let b:current_syntax = "ibm1620script"
