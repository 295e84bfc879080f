" Made by bin/operation-places from share/operations.txt; it also looks whether the two agree.
setlocal colorcolumn=13,25,37,49,61,73 textwidth=0
