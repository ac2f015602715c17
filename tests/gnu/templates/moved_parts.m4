dnl undivert: parts brought in where they are wanted, into the output and into another diversion, unread, and each but once.
define(`part',`divert($1)$2
divert(0)')dnl
part(1,`one')part(2,`two')part(3,`three')part(4,`four')part(5,`five')part(6,`six')dnl
first come 3 and 1:
undivert(3)undivert(1)dnl
again, now empty:
undivert(3)dnl
part(3,`three again')dnl
divert(7)seven begins
undivert(2)seven goes on
undivert(4)divert(0)dnl
several at once:
undivert(6,5)dnl
divert(8)`define(`quoted',`not a call')'
divert(0)dnl
what is moved is not read again:
undivert(8)dnl
the current one is skipped:
divert(9)nine
undivert(9)nine again
divert(0)dnl
[undivert(9)]
define(`f',`<$1>')dnl
part(1,`moved while an argument is read')dnl
f(undivert(1)x)
divert(2)late two
divert(1)late one
divert(0)dnl
now the rest, in order:
undivert`'dnl
end of the text
