dnl Predefined names that no parenthesis directly follows: seventeen are words of the text, in prose and in arguments, unless a text covers them; seven are called.
The len of the boom, the index (see below), a shift of eight hours, and what we define.
decr define defn errprint eval ifdef ifelse incr index len m4wrap popdef pushdef shift substr translit undefine
decr (4) define (`n',5) defn (`n') errprint (`e') eval (1+1) ifdef (`len',1,2) ifelse (a,a,b) incr (4) index (`abc',`b')
len (`abc') m4wrap (`w') popdef (`n') pushdef (`n',6) shift (a,b) substr (`abc',1) translit (`a',`a',`b') undefine (`n')
len
(`abc') len	(`abc') len`'(`abc') len`x' len# a comment
(`abc') len. len, len) (len) [len] _len len_ len2 2len `len'(abc) `len'
dnl in arguments
define(`n',`$#')define(`show',`[$1|$2]')define(`all',`<$*>')define(`each',`<$@>')dnl
show(len) show(define a) show( index , shift ) show(len (a,b),c) show(`len',len) show(
 eval
) show(eval`' a) all(len,`index') each(len,`index') n(len,,shift)
len(len) len(define a) len( popdef) index(`the index',index) substr(translit,5) translit(shift,`s',`S') incr(len(incr))
ifelse(len,`len',`same',`other') ifelse(substr,substr,`same') shift(shift,eval,eval) ifdef(`len',`yes',`no') ifdef(len,`yes',`no') ifdef(lens,`yes',`no')
dnl where the parenthesis stands in the text that follows
define(`p',`len')define(`q',``len'')define(`r',`len (')define(`s',`len(')define(`half',`le')dnl
p p() p()(abc) p (abc) p`'(abc) p(x)(abc) q()(abc) r()abc) s()abc) p()
(abc) half()n(abc) half()n half()n (abc)
define(`apply',`$1($2)')define(`apart',`$1 ($2)')dnl
apply(len,abc) apply(`len',abc) apart(len,abc) apart(`incr',4)
dnl by the meaning and not by the name
pushdef(`len',`length$#')len len() len(a,b) len (a) popdef(`len')len len (a) len(abc)
pushdef(`index',`i')pushdef(`index',`j')index popdef(`index')index popdef(`index')index index(`abc',`c')
pushdef(`shift',`x')define(`shift',`y')shift shift (a) popdef(`shift')shift shift(a,b)
define(`substr',``substr'[$1]')substr substr(a) substr (a)
undefine(`substr')substr substr(a) substr (a) ifdef(`substr',`yes',`no')
undefine(translit)translit(a,a,b) translit translit (a,a,b)
popdef(decr)decr(4) decr
define(errprint,`e$1')errprint errprint(1) errprint (1)
define(`size',`len (`$1')')size(abc) define(`size',`len(`$1')')size(abc)
dnl the seven
in stream divnum, divert to stream divnum (0) undivert now
divert(1)one len in divnum
divert two undivert`'three
changequote (`a') changequote([,])[len] len (a) len[](a) len[]changequote `a' len
changecom len # divnum, `divnum' `dnl' (a) changecom(`#')# divnum
a dnl (b
m4wrap(`(abc) len, divnum
')dnl
at the end len