tail=divnum
errprint(`tail
')dnl
