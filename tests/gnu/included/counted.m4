dnl A text that includes itself until a count is used up, and marks that change in an included text.
define(`n', 4)dnl
include(`count.m4')
include(`marks.m4')dnl
[n]=n `n'
include(back.m4)dnl
[n]=n `n'
