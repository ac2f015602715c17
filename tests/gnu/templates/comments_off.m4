changecom`'dnl
dnl Comments are off: the number sign is a plain byte, and macros work behind it.
define(`id',`#$1')dnl
define(`mast_no',17)dnl
id(mast_no) # mast_no
define(`part',`id($1)-id($2)')dnl
part(1,2) ##part(3,4)##
define(`color',`#eval($1,16,2)eval($2,16,2)eval($3,16,2)')dnl
color(255,128,0)
color(1,2,3)
len(`#')
len(#,#)
define(`hash',`ifelse($1,#,yes,no)')dnl
hash(#) hash(a)
changecom(`#')dnl
id(mast_no) # mast_no
define(`late',`#mast_no
')dnl
late()dnl
changecom`'dnl
late()dnl
translit(`#1 #2 #3',`#',`N')
substr(`#abc',1)
index(`abc#',`#')
