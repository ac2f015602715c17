dnl A template that tests its settings before it writes: here the crew mistyped the ground. It ends with m4exit and no sheet lines.
define(`ground', `opne')dnl
define(`known', `ifelse(`$1', `yard', 1, `$1', `open', 1, `$1', `coast', 1, 0)')dnl
ifelse(known(ground), 1, `', `errprint(`ground is yard, open or coast, not', ground)errprint(`
')m4exit(3)')dnl
ground=ground
