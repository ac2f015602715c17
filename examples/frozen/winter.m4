dnl The guy tables as they stood until winter: four of them nested, and the old expander's 4,096 bytes of pushed-back text were enough.
dnl See spring.m4.
dnl
define(`set', ``$1'=$2
')dnl
define(`metres', `eval(($1) / 100).eval(($1) % 100, 10, 2)')dnl
define(`forloop', `pushdef(`$1', `$2')forloop_on(`$1', `$3', `$4')popdef(`$1')')dnl
define(`forloop_on', `$3`'ifelse($1, `$2', `', `define(`$1', incr($1))forloop_on(`$1', `$2', `$3')')')dnl
dnl
dnl row(TABLE, NUMBER, GUYS, LENGTH): one guy; table(TABLE, GUYS, LENGTH, TABLES): its rows, and behind them the tables nested in it
define(`row', `set(`guy_$1_$2_bearing', eval(($2 - 1) * 360 / $3))dnl
set(`guy_$1_$2_anchor', metres($4 * 3 / 5))dnl
set(`guy_$1_$2_length', metres($4 + $2))dnl
set(`guy_$1_$2_tension', eval(600 + 5 * $2))dnl
set(`guy_$1_$2_slack', eval($2 % 2))')dnl
define(`table', `forloop(`i', 1, $2, `row(`$1', i, $2, $3)')$4')dnl
dnl
set(`family', `pier')dnl
table(`foot', 10, 900,
table(`low', 10, 1250,
table(`high', 10, 1700,
table(`head', 10, 2100, set(`sway_frozen', `distrust')))))dnl
set(`sway_gain', 0.80)dnl
set(`sheet', `whole')dnl
