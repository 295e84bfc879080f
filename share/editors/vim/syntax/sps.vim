" Made by bin/operation-places from share/operations.txt; it also looks whether the two agree.
if exists("b:current_syntax") | finish | endif
syn match spsLabel /\v%6c[A-Z0-9 ]{1,6}/
hi def link spsLabel Identifier
syn match spsUnknown /\v%12c\S.{0,3}/
hi def link spsUnknown Error
syn match spsInstruction /\v%12c%(%(BNC1|BNC2|BNC3|BNC4|BNLC|RNCD|RACD|WNCD|WACD|DNCD|RNTY|RATY|WNTY|WATY|DNTY|SPTY|RCTY|TBTY|RDGN|CDGN|WDGN)|%(TDM|TFM|TNS|TNF|BTM|BNF|BNR|BNG|BNI|BNH|BNP|BNE|BNZ|BNL|BNN|BNV|BNA|BC1|BC2|BC3|BC4|BLC|RDN|CDN|WDN|NOP)%( |$)|%(AM|SM|CM|TD|TF|TR|SF|CF|MF|BB|BT|BD|BI|BH|BP|BE|BZ|BL|BN|BV|BA|SK|RN|RA|WN|WA|DN|11|12|14|15|16|17|21|22|24|25|26|27|31|32|33|34|35|36|37|38|39|41|42|43|44|45|46|47|48|49|55|71|72|73)%(  | ?$)|%(A|S|C|B|K|H)%(   | ? ?$))/
hi def link spsInstruction Statement
syn match spsDeclarative /\v%12c%(%(DORG|DEND|HEAD)|%(DSS|DAS|DSC|DAC|DSA|DSB|DNB|DGM|DDA)%( |$)|%(DS|DC)%(  | ?$))/
hi def link spsDeclarative Type
syn match spsComment /\v^.{5}\*.*$/
hi def link spsComment Comment
syn match spsFree /\v%76c.{1,5}/
hi def link spsFree Comment
syn match spsTooLong /\v%81c.*/
hi def link spsTooLong Error
let b:current_syntax = "sps"
