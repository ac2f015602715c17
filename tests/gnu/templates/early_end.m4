dnl m4exit with 0, deep inside open calls: the text before it stands, all behind it is never read, not even its open quote.
define(`stop_at',`ifelse($1,$2,`m4exit(0)')')dnl
define(`count',`line $1
stop_at($1,4)count(incr($1))')dnl
before
divert(5)dropped
divert(0)dnl
m4wrap(`dropped too
')dnl
count(1)
never read `unclosed
