dnl substr and len: fields of a fixed width, texts walked byte by byte.
define(`text',`sway_filter_gain')dnl
substr(text,0,4) substr(text,5,6) substr(text,12) [substr(text,16)] [substr(text,20,3)] [substr(text,2,0)]
len(text) len(`') len(`a b') len(text`'text)
define(`each',`ifelse(len(`$1'),0,`',`(substr(`$1',0,1))each(substr(`$1',1))')')dnl
each(`mast')
define(`reverse',`ifelse(len(`$1'),0,`',`reverse(substr(`$1',1))`'substr(`$1',0,1)')')dnl
reverse(`telescopic')
define(`pad',`ifelse(eval(len(`$1')<$2),1,`pad(`$1 ',$2)',``$1'')')dnl
[pad(`guy',8)][pad(`tension',8)][pad(`longer than eight',8)]
define(`pad_left',`ifelse(eval(len(`$1')<$2),1,`pad_left(` $1',$2)',``$1'')')dnl
[pad_left(17,6)][pad_left(1400,6)]
define(`row',`pad(`$1',10)|pad_left(`$2',7)|')dnl
row(north,1400)
row(east,85)
row(south,100000)
define(`front',`substr(`$1',0,eval(len(`$1')-1))')dnl
front(`abc') [front(`a')]
define(`last',`substr(`$1',decr(len(`$1')))')dnl
last(`abc') last(`z')
define(`palindrome',`ifelse(reverse(`$1'),`$1',`yes',`no')')dnl
palindrome(`level') palindrome(`lever')
define(`cut_calls',`substr(`len(`four')x',0,11)')dnl
cut_calls
substr(`define',0,3) substr(`abc',1,1000000)
define(`thousands',`ifelse(eval(len(`$1')>3),1,`thousands(substr(`$1',0,eval(len(`$1')-3)))'.,`')substr(`$1',ifelse(eval(len(`$1')>3),1,`eval(len(`$1')-3)',0))')dnl
thousands(1234567) thousands(12)
