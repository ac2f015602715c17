dnl Macros that keep a state: counters, a label maker, a sum, a switch, and definitions made by definitions.
define(`counter',`define(`$1',$2)define(`next_$1',`define(`$1',incr($1))$1')')dnl
counter(`guy',0)counter(`drum',100)dnl
next_guy next_guy next_drum next_guy next_drum
guy drum
define(`label',`define(`labels',ifdef(`labels',`incr(labels)',1))L`'eval(labels,10,3)')dnl
label label label
define(`total',0)dnl
define(`add',`define(`total',eval(total+($1)))$1')dnl
add(3)+add(4)+add(5*2)=total
define(`toggle',`ifelse(state,`on',`define(`state',`off')',`define(`state',`on')')state')dnl
toggle toggle toggle
define(`setter',`define(`set_$1',`define(`$1','`$'`1)')')dnl
setter(`wind')setter(`load')dnl
set_wind(17)set_load(`heavy')wind load
set_wind(3)wind
define(`once',`ifdef(`done_$1',`',`define(`done_$1')$2')')dnl
once(`head',`header printed
')once(`head',`header printed
')once(`foot',`footer printed
')dnl
define(`memo',`ifdef(`memo_$1',`memo_$1',`define(`memo_$1',eval($1*$1))(new) memo_$1')')dnl
memo(4) memo(4) memo(5) memo(4)
define(`queue',`')dnl
define(`enqueue',`define(`queue',queue`$1;')')dnl
enqueue(`a')enqueue(`b')enqueue(`c')queue
define(`max_so_far',0)define(`see',`ifelse(eval($1>max_so_far),1,`define(`max_so_far',$1)')')dnl
see(4)see(9)see(2)max_so_far
