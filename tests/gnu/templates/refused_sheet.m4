dnl A sheet that ends itself: the crew asked for a family that is not there. What is diverted and wrapped is dropped.
define(`family',`medium')dnl
define(`fail',`errprint(`no such family: $1
')m4exit(3)')dnl
divert(1)this text never reaches the sheet
divert(0)dnl
m4wrap(`nor does this
')dnl
family=family
define(`known',` tall short ')dnl
checking family
ifelse(index(known,` 'family` '),-1,`fail(family)',`known')
end_of_sheet=1
