dnl forloop(NAME, FROM, TO, TEXT): the text once for each number from FROM to TO; NAME stands for it.
dnl pushdef and popdef keep what NAME meant before, so loops nest.
define(`forloop', `pushdef(`$1', `$2')forloop_on(`$1', `$3', `$4')popdef(`$1')')dnl
define(`forloop_on', `$3`'ifelse($1, `$2', `', `define(`$1', incr($1))forloop_on(`$1', `$2', `$3')')')dnl
define(`i', `kept')dnl
forloop(`i', 1, 4, `guy_`'i=eval((i - 1) * 90)
')dnl
forloop(`i', 1, 3, `forloop(`j', i, 3, `cross_`'i`'_`'j=eval(i * 10 + j)
')')dnl
forloop(`i', -1, 1, `offset_`'eval(i + 2)=i
')dnl
`i'=i
