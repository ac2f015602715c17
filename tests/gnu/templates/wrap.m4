dnl Text kept for the end: a footer that counts what went before, and more text kept while it is written.
define(`lines',0)dnl
define(`item',`define(`lines',incr(lines))$1=$2
')dnl
m4wrap(`item(`footer',1)dnl
item(`lines_written',lines)dnl
m4wrap(`the very end, after "lines" lines
m4wrap(`and one more
')dnl
')dnl
')dnl
item(`mast',`tall_one')dnl
item(`sway_limit',45)dnl
divert(2)a diverted line, written out behind all wrapped text
divert(0)dnl
item(`wind_limit',17)dnl
define(`lines',incr(lines))dnl
item(`frozen_sensor_trust',0)dnl
body ends here, lines=lines
