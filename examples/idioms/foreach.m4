dnl foreach(NAME, TEXT, ITEM, ...): the text once for each item, which NAME stands for. Each turn shifts the first item away.
define(`foreach', `pushdef(`$1', `$3')$2`'popdef(`$1')ifelse($#, 3, `', `foreach(`$1', `$2', shift(shift(shift($@))))')')dnl
foreach(`s', `sensor_`'s=on
', `boom', `head', `ring')dnl
dnl Quoted items keep their commas, and an empty item is one.
item_lengths=foreach(`s', `len(defn(`s'))', `a, b', `', `c')
dnl The same by a macro's name: each(MACRO, ITEM, ...) calls MACRO(ITEM).
define(`each', `$1(`$2')ifelse($#, 2, `', `each(`$1', shift(shift($@)))')')dnl
define(`guy', `guy_$1_length=eval(1200 + 35 * $1)
')dnl
each(`guy', 1, 2, 3)dnl
dnl Items counted and joined the other way round.
define(`reversed', `ifelse($#, 1, `$1', `reversed(shift($@))_$1')')dnl
order=reversed(`boom', `head', `ring')
