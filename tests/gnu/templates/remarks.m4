dnl dnl everywhere: behind calls, in definitions over many lines, alone on a line, with text behind it, inside arguments and twice in a line.
define(`mast',`tall')dnl the name of the family
define(`settings',`dnl the first line of the text is dropped
name=mast
dnl this line is dropped, with its quotes
limit=45 dnl and this tail
last=1
')dnl
settings()dnl
dnl
	dnl a tab stays in front of this
mast dnl gone
mast`'dnl gone
next dnl dnl twice
dnlx is no dnl, xdnl neither
`dnl' quoted stays
define(`drop',`dnl')dnl
drop all of this
kept
define(`x',`1')define(`y',dnl a remark between arguments
`2')dnl
x`'y
ifelse(mast,`tall',`dnl chosen
yes',`no')
define(`rest',`a
b dnl')dnl
rest joins the line behind it
so this is next
# dnl in a comment stays
define(`f',`[$1]')dnl
f(`one dnl two
three')
f(one dnl two
three)
dnl the last line has a newline
