dnl What the templates of all mast families share. It writes nothing by itself.
dnl set(NAME, READING): one line of the sheet. The name is quoted, so that it may be a macro's name too.
define(`set', ``$1'=$2
')dnl
dnl metres(CENTIMETRES): a length with two decimals
define(`metres', `eval(($1) / 100).eval(($1) % 100, 10, 2)')dnl
dnl forloop(NAME, FROM, TO, TEXT): the text once for each number; NAME stands for it
define(`forloop', `pushdef(`$1', `$2')forloop_on(`$1', `$3', `$4')popdef(`$1')')dnl
define(`forloop_on', `$3`'ifelse($1, `$2', `', `define(`$1', incr($1))forloop_on(`$1', `$2', `$3')')')dnl
