" Made by bin/operation-places from share/operations.txt; it also looks whether the two agree.
setlocal colorcolumn=6,12,16,76 textwidth=0
if has('vartabs') | setlocal expandtab vartabstop=5,6,4 varsofttabstop=5,6,4 | endif
