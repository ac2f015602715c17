dnl Tripod masts, P series: three legs, no guys.
dnl The crew sets the next two lines and leaves the rest alone.
define(`height_cm', 640)dnl      ground to head
define(`spread_cm', 410)dnl      foot to foot
define(`sensors', ``head', `foot'')dnl
include(`sheet.m4')dnl
set(`family', `tripod')dnl
set(`height', metres(height_cm))dnl
forloop(`i', 1, 3, `set(`leg_'i`_bearing', eval((i - 1) * 120))')dnl
set(`leg_spread', metres(spread_cm))dnl
dnl What a yard wants to have otherwise stands in a file of its own; most yards have none.
sinclude(`yard.m4')dnl
include(`sway.m4')dnl
