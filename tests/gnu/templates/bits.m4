dnl A register of flags: bits set, cleared and asked for; shifts; the order of & ^ and |.
define(`bit',`eval(1<<$1)')dnl
define(`flags',0)dnl
define(`set',`define(`flags',eval(flags|1<<$1))')dnl
define(`clear',`define(`flags',eval(flags&~(1<<$1)))')dnl
define(`flip',`define(`flags',eval(flags^1<<$1))')dnl
define(`ask',`ifelse(eval((flags>>$1)&1),1,`on',`off')')dnl
define(`BRAKE',0)define(`LAMP',3)define(`FROZEN',7)define(`HEATER',15)dnl
set(BRAKE)set(FROZEN)set(HEATER)dnl
flags flags: eval(flags,16,4) eval(flags,2,16)
brake ask(BRAKE), lamp ask(LAMP), frozen ask(FROZEN), heater ask(HEATER)
clear(FROZEN)flip(LAMP)dnl
eval(flags,16,4): frozen ask(FROZEN), lamp ask(LAMP)
flip(LAMP)flip(BRAKE)clear(HEATER)dnl
left: flags
define(`forloop',`pushdef(`$1',`$2')_forloop($@)popdef(`$1')')dnl
define(`_forloop',`$4`'ifelse($1,`$3',`',`define(`$1',incr($1))_forloop($@)')')dnl
forloop(`n',0,31,`bit(n)
')dnl
eval(1|2^3&6) eval(1|2==2) eval(4&5==5) eval(1^1==1) eval(7&3|8^1)
eval(-1>>31) eval(-8>>1) eval(1<<31) eval(1<<31>>31) eval(~0) eval(~5+1)
eval(0xff&0x0f) eval(0xF0|0x0f,16) eval(1<<4|1<<2,2,8)
eval(3&1&&2&1) eval(0||0&&1||1) eval(!(1&2))
eval(0x7fffffff) eval(0xffffffff) eval(4294967295>0) eval(037777777777)
