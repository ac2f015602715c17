dnl Chains of ifelse: classes of wind, tables of cases, defaults, and tests that are nested.
define(`between',`eval($1>=$2&&$1<$3)')dnl
define(`class',`ifelse(
between($1,0,2),1,`calm',
between($1,2,6),1,`breeze',
between($1,6,11),1,`fresh',
between($1,11,17),1,`strong',
between($1,17,25),1,`gale',
`storm')')dnl
define(`act',`ifelse(`$1',`calm',`distrust',`$1',`breeze',`shoot',`$1',`fresh',`shoot',`$1',`strong',`lower',`$1',`gale',`strike',`leave')')dnl
define(`report',`wind_$1=class($1) action=act(class($1))')dnl
report(0)
report(1)
report(2)
report(5)
report(6)
report(10)
report(16)
report(17)
report(24)
report(25)
report(90)
define(`sign',`ifelse($1,0,`zero',eval($1<0),1,`minus',`plus')')dnl
sign(0) sign(-3) sign(3)
define(`max',`ifelse(eval($1>$2),1,`$1',`$2')')define(`min',`ifelse(eval($1<$2),1,`$1',`$2')')dnl
max(3,4) max(4,3) min(-1,1) max(min(5,9),min(7,6))
ifelse(a,a,`first',`second') ifelse(a,b,`first',`second') [ifelse(a,b,`first')] ifelse(a,b,1,c,d,2,e,e,3,4)
ifelse(`a b',a b,`same',`other') ifelse(`',,`both empty') ifelse(,a,`no',`one empty')
ifelse(a,b,`1',c,d,`2',`the default')
define(`answer',`ifelse($1,yes,`define(`state',`on')',$1,no,`define(`state',`off')')state')dnl
answer(yes) answer(no) answer(maybe)
