dnl Lattice masts, L series: stiff, guyed in two rings. The sheet of the sway controller.
dnl The crew sets the next three lines and leaves the rest alone.
define(`height_cm', 1840)dnl     ground to boom
define(`ring_guys', 3)dnl        guys in each ring
define(`ground', `open')dnl      yard, open or coast
dnl
dnl set(NAME, READING): one line of the sheet. The name is quoted, so that it may be a macro's name too.
define(`set', ``$1'=$2
')dnl
dnl metres(CENTIMETRES): a length with two decimals
define(`metres', `eval(($1) / 100).eval(($1) % 100, 10, 2)')dnl
dnl forloop(NAME, FROM, TO, TEXT): the text once for each number; NAME stands for it
define(`forloop', `pushdef(`$1', `$2')forloop_on(`$1', `$3', `$4')popdef(`$1')')dnl
define(`forloop_on', `$3`'ifelse($1, `$2', `', `define(`$1', incr($1))forloop_on(`$1', `$2', `$3')')')dnl
dnl foreach(NAME, TEXT, ITEM, ...): the text once for each item; NAME stands for it
define(`foreach', `pushdef(`$1', `$3')$2`'popdef(`$1')ifelse($#, 3, `', `foreach(`$1', `$2', shift(shift(shift($@))))')')dnl
dnl
dnl guy(RING, NUMBER, LENGTH, NEWTON) and ring(RING, HEIGHT, LENGTH, NEWTON), lengths in centimetres
define(`guy', `set(`guy_$1_$2_bearing', eval(($2 - 1) * 360 / ring_guys))dnl
set(`guy_$1_$2_length', metres($3))dnl
set(`guy_$1_$2_tension', $4)')dnl
define(`ring', `set(`ring_$1_height', metres($2))dnl
forloop(`i', 1, ring_guys, `guy(`$1', i, $3, $4)')')dnl
dnl
set(`family', `lattice')dnl
set(`height', metres(height_cm))dnl
set(`ground', ground)dnl
ring(`lower', height_cm / 3, 1150, 900)dnl
ring(`upper', height_cm * 4 / 5, 1890, 1100)dnl
dnl The filter trusts its sensors more the calmer the ground is; a frozen sensor it never trusts.
set(`sway_gain', ifelse(ground, `yard', `0.60', ground, `open', `0.75', `0.90'))dnl
set(`sway_cutoff_mhz', eval(18400000 / (height_cm * height_cm / 100)))dnl
foreach(`sensor', `set(`sensor_'sensor`_frozen', `distrust')', `boom', `head', `foot')dnl
set(`frozen_after', eval(3 + (ring_guys > 3)))dnl
