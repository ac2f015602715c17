divert(-1)
A block of definitions in a discarding stream: blank lines, remarks like this one and stray text cost nothing in the output.

define(`pi_thousandth',3142)

define(`circle',`eval(2*pi_thousandth*($1)/1000)')
define(`area',`eval(pi_thousandth*($1)*($1)/1000)')

It may even hold lists (one, two) and numbers 1, 2, 3; and # a comment with `quotes'
define(`unit',`mm')
define(`with_unit',`$1 unit')

define(`here',divnum)
divert(0)dnl
drum=with_unit(circle(120))
surface=with_unit(area(10))
made in stream here, used in stream divnum
divert(-1)
define(`late',`defined between two parts')
this is lost
divert`'dnl
late
divert(-3)lost too divert(2)kept for the end
divert(0)dnl
divert(-1)undivert(3)divert(0)dnl
still here
divert(4)thrown away
divert(-1)undivert(4)divert(0)dnl
end
