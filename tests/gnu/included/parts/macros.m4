dnl included by library.m4 and streams.m4
include(`numbers.m4')dnl
define(`line', ``$1'=$2
')dnl
