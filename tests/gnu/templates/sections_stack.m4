dnl A tower of sections as a stack: pushed, popped, walked, with depth and totals.
define(`depth',0)dnl
define(`push',`pushdef(`top',`$1')define(`depth',incr(depth))')dnl
define(`pop',`ifelse(depth,0,`empty',`top`'popdef(`top')define(`depth',decr(depth))')')dnl
push(3000)push(2900)push(2750)push(2500)dnl
depth: top
pop pop depth
define(`drain',`ifelse(depth,0,`end',`pop drain')')dnl
push(2000)push(`1500')dnl
drain
pop
define(`rpn',`ifelse(`$#',1,`one($1)pop',`one($1)rpn(shift($@))')')dnl
define(`one',`ifelse(`$1',`+',`binary(`+')',`$1',`-',`binary(`-')',`$1',`*',`binary(`*')',`push($1)')')dnl
define(`binary',`pushdef(`right',pop)pushdef(`left',pop)push(eval(left $1 right))popdef(`left',`right')')dnl
rpn(3,4,+)
rpn(10,2,3,*,-)
rpn(1,2,3,4,5,+,+,+,+)
rpn(7)
define(`while',`ifelse(eval($1),1,`$2`'while(`$1',`$2')')')dnl
define(`n',100)dnl
while(`n>1',`n define(`n',eval(n/3))')n
define(`i',0)dnl
while(`i<5',`define(`i',incr(i))push(i)')dnl
while(`depth>0',`pop')
