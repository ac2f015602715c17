dnl Everything about arguments: their number, empty ones, blanks, parentheses, more than nine, names that wait for theirs.
define(`n',`$#')define(`show',`[$1|$2|$3]')define(`self',``$0'')define(`all',`<$*>')define(`each',`<$@>')dnl
n n() n(,) n(a) n(a,) n( a , b , c )
show() show(a) show(a,b) show(a,b,c) show(a,b,c,d)
show( leading,
  new line,	tab) show(trailing , blanks ,here )
show((a,b),(c,(d,e)),f) show(`a,b',`(',`)')
self self() self(x) all all() all(a,b) all(`a',`b') each each() each(a,b)
define(`nine',`$9$8$7$6$5$4$3$2$1')dnl
nine(a,b,c,d,e,f,g,h,i) nine(a,b,c) n(1,2,3,4,5,6,7,8,9,10,11,12)
all(1,2,3,4,5,6,7,8,9,10,11,12)
define(`dollars',`$ $$ $a $1$ $$1 $-1 $( $"')dnl
dollars(x)
n (a) n
(a) n`'(a) n()(a)
define(`name',`n')dnl
name`'(a,b) name(a,b)
define(`call',`$1')dnl
call(`n')(a,b,c) call(`show(p,q,r)')
define(`a1',`one')define(`a2',`two')dnl
a1 a2 a3 a12 1a1 a1a `a'1 a`'1
define(`cond',`ifelse(`$1',`',`empty',`full')')dnl
cond cond() cond(`') cond( ) cond(` ') cond(x)
define(`quote3',``$1',`$2',`$3'')dnl
n(quote3(a,b,c)) n(`quote3(a,b,c)')
show(n(a,b),n(),`n') show(show(1,2,3),show(`4,5'),6)
define(`_u1',`under')define(`X_',`score')dnl
_u1 X_ _u2 -X_- .n.
