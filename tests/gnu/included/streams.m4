dnl Included while text is diverted, in arguments, in a macro's text and at the end.
divert(2)dnl
include(`tail.m4')divert(0)dnl
include(`macros.m4')dnl
define(`each', `include(`$1.m4')')dnl
len(include(`word.m4')) index(include(`word.m4'), `o') [each(`word')] translit(include(`word.m4'), `o', `0')
ifelse(include(`word.m4'), `boom', `same', `other')
m4wrap(`include(`tail.m4')')dnl
ifdef(`include', `there', `gone') undefine(`sinclude')sinclude(`word.m4')
pushdef(`include', `<$1>')include(`word.m4')popdef(`include') include(`word.m4')`'include(`word.m4')
line(`twice', twice(21))dnl
