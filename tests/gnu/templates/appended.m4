dnl defn: texts that are added to, copied to another name, and joined, without being expanded on the way.
define(`log',`')dnl
define(`append',`define(`$1',defn(`$1')`$2')')dnl
append(`log',`guy(1) ')append(`log',`guy(2) ')append(`log',`guy(3)')dnl
log
define(`guy',`line $1')dnl
log
defn(`log')
define(`old_guy',defn(`guy'))dnl
define(`guy',`new old_guy($1)')dnl
guy(7) old_guy(7)
define(`prepend',`define(`$1',`$2'defn(`$1'))')dnl
prepend(`log',`all: ')dnl
log
define(`a',`$1-')define(`b',`$2+')dnl
define(`ab',defn(`a',`b'))dnl
ab(1,2)
define(`q',``quoted' text')dnl
define(`r',defn(`q'))dnl
q r defn(`q') defn(`r')
[defn(`nothing')]
define(`null')dnl
[defn(`null')]
define(`swap',`pushdef(`hold',defn(`$1'))define(`$1',defn(`$2'))define(`$2',defn(`hold'))popdef(`hold')')dnl
define(`left',`<$1')define(`right',`$1>')dnl
swap(`left',`right')left(1) right(2)
define(`list',``one'')dnl
define(`list',defn(`list')`,``two''')dnl
define(`list',defn(`list')`,``three''')dnl
list
define(`count',`$#')dnl
count(list)
len(defn(`list'))
