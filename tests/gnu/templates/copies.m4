dnl Copies of predefined macros and of texts. The next line makes a copydef for GNU m4, which has none.
ifdef(`copydef',`',`define(`copydef',`define(`$2',defn(`$1'))')')dnl
dnl the riggers' own name for define
copydef(`define',`rig')dnl
rig(`guys',3)guys rig rig (`guys',4) guys [rig] rig. rig`'(`a') rig
(`b') ifdef(`rig',`yes',`no')
rig(`both',`<$1|$2>')both(rig,guys) both(`rig',rig (a)) rig(`guys',`$#')guys(a,b)
dnl what only gives a result: with a parenthesis, and as a word
copydef(`len',`l')copydef(`index',`at')copydef(`substr',`cut')copydef(`translit',`swap')dnl
l(`boom') at(`boom',`m') cut(`boom',1,2) swap(`boom',`o',`0') l at cut (`boom',1) swap. l`'(`boom')
copydef(`incr',`up')copydef(`decr',`down')copydef(`eval',`calc')dnl
up(4) down(4) calc(2+3) calc(255,16,4) calc(up(4)*down(4)) up calc (2+3) up(l(`boom'))
copydef(`ifelse',`when')copydef(`ifdef',`has')copydef(`shift',`rest')copydef(`defn',`text_of')dnl
when(a,a,`same',`other') when(a,b,`same',a,a,`second') has(`guys',1,0) has(`sway',1,0) has(`l',1,0) [rest(a,`b,c',d)] when has rest text_of(`both')
both(l,at) both(l(`a'),at(`ab',`b')) both(rest(a,`b',`c')) both(copydef(`len',`inner')`'inner(`abcd'),inner)
dnl what changes other things
copydef(`pushdef',`push')copydef(`popdef',`pop')copydef(`undefine',`forget')dnl
push(`z',1)push(`z',2)z pop(`z')z forget(`z')z push pop forget
copydef(`errprint',`warn')warn(`low wind
')copydef(`m4wrap',`last')last(`at the end: l(`boom')
')warn last
dnl without a parenthesis, too
copydef(`divnum',`where')copydef(`divert',`to')copydef(`undivert',`back')copydef(`dnl',`note')dnl
where where() both(where,`where') to(2)two where
to(1)one where
to note dropped (a, `b
back(2)where note
to(-1)thrown away, where
to(0)kept
copydef(`changequote',`marks')marks([,])[a `b'] where marks`c [d]' where
copydef(`changecom',`remarks')remarks(`%')% where `a'
remarks # where `a'
remarks(`#')# where `a'
dnl by the meaning and not by the name
pushdef(`len',`x')copydef(`divnum',`len')len len() popdef(`len')len len(`abc')
pushdef(`divnum',`x')copydef(`len',`divnum')divnum divnum(`abc') popdef(`divnum')divnum
copydef(`incr',`decr')decr(4) decr pushdef(`dnl',`x')copydef(`len',`dnl')dnl(`abc') dnl popdef(`dnl')dnl dropped
copydef(`both',`index')index(a,b) index
copydef(`note',`index')index(a,b) gone
dnl of texts: the name called, no changes later, over another definition
rig(`show',``$0':$#:$1')copydef(`show',`tell')rig(`show',`new')show tell tell() tell(a,b) text_of(`tell')
copydef(`tell',`say')forget(`tell')say(c) tell(c) copydef(`say',`say')say(d)
push(`p',`one')push(`p',`two')copydef(`l',`p')p(`abc') p pop(`p')p pop(`p')p
push(`p',`over')copydef(`p',`q')pop(`p')p q copydef(`q',`l')l(`abc') l
dnl renamed, copies of copies, and of copydef
copydef(`up',`next')forget(`up',`incr')next(7) up(7) incr(7) decr(7)
copydef(`copydef',`also')also(`at',`place')also(`rig',`let')let(`k',`v')k place(`abc',`c') also(`where',`here',`surplus')here surplus
