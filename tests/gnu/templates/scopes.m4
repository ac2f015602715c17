dnl Settings that hold for one section and come back after it.
define(`limit',50)define(`unit',`mm')dnl
define(`show',`limit`'unit')dnl
define(`begin_section',`pushdef(`section',`$1')pushdef(`limit',`$2')pushdef(`unit',`$3')[section')dnl
define(`end_section',`section]popdef(`section',`limit',`unit')')dnl
outside: show
begin_section(lower,40,`mm')
  show
begin_section(middle,3,`cm')
  show
begin_section(upper,25,`mm')
  show
end_section
  show
end_section
  show
end_section
outside: show, section
define(`with',`pushdef(`$1',`$2')$3`'popdef(`$1')')dnl
with(`limit',7,`show with(`limit',8,`show') show')
show
pushdef(`x',1)pushdef(`x',2)pushdef(`x',3)dnl
x popdef(`x')x define(`x',9)x popdef(`x')x popdef(`x')x
pushdef(`y',`a')pushdef(`y',`b')undefine(`y')y
popdef(`y')ifdef(`y',`still',`gone')
pushdef(`len',`(length)')len(`abc')`'popdef(`len') len(`abc')
define(`depth',0)dnl
define(`deeper',`pushdef(`depth',incr(depth))ifelse(depth,$1,`<depth>',`(deeper($1))')popdef(`depth')')dnl
deeper(5) depth
