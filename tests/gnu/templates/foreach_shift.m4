dnl Lists walked with shift: for each cable of a list a block, then counts, joins and sums of the same lists.
define(`foreach',`pushdef(`$1')_foreach($@)popdef(`$1')')dnl
define(`first',`$1')dnl
define(`_foreach',`ifelse(`$2',`()',`',`define(`$1',first$2)$3`'_foreach(`$1',(shift$2),`$3')')')dnl
define(`cables',`(north,east,south,west)')dnl
define(`drums',`(winch,idler,spare)')dnl
foreach(`c',cables,`cable_`'c`'_drum=foreach(`d',drums,`c`'_`'d ')
')dnl
define(`count',`ifelse(`$#',0,0,`$#')')dnl
cables=count`'cables
drums=count`'drums
none=count
define(`join',`ifelse(`$#',1,`',`$#',2,`$2',`$2`$1'join(`$1',shift(shift($@)))')')dnl
join(`/',north,east,south,west)
join(`, ',`a b',`c d',e)
join(`-',alone)
define(`sum',`ifelse(`$#',1,`$1',`eval($1+sum(shift($@)))')')dnl
sum(3,4,5)
sum(10)
define(`last',`ifelse(`$#',1,`$1',`last(shift($@))')')dnl
last(1,2,3,4,`the end')
define(`nth',`ifelse($1,1,`$2',`nth(decr($1),shift(shift($@)))')')dnl
nth(3,a,b,c,d)
define(`has',`ifelse(`$2',`',`no',`$1',`$2',`yes',`has(`$1',shift(shift($@)))')')dnl
has(east,north,east,south) has(up,north,east,south)
foreach(`x',(one),`[x]')
foreach(`x',(),`[x]')nothing
