dnl Trailer masts, R series: one tube on a truck, held by outriggers.
dnl The crew sets the next two lines and leaves the rest alone.
define(`height_cm', 1275)dnl     ground to head
define(`outriggers', 4)dnl
define(`sensors', ``boom', `head', `truck'')dnl
include(`sheet.m4')dnl
set(`family', `trailer')dnl
set(`height', metres(height_cm))dnl
forloop(`i', 1, outriggers, `set(`outrigger_'i`_reach', metres(180 + 15 * (i % 2)))')dnl
sinclude(`yard.m4')dnl
include(`sway.m4')dnl
