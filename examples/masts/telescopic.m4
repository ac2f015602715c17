dnl Telescopic masts, T series: no guys, sections pushed up by air. The sheet of the sway controller.
dnl The crew sets the mast's code: T, the number of sections, an underscore, the height in centimetres.
define(`code', `T6_2150')dnl
dnl
define(`set', ``$1'=$2
')dnl
define(`metres', `eval(($1) / 100).eval(($1) % 100, 10, 2)')dnl
define(`forloop', `pushdef(`$1', `$2')forloop_on(`$1', `$3', `$4')popdef(`$1')')dnl
define(`forloop_on', `$3`'ifelse($1, `$2', `', `define(`$1', incr($1))forloop_on(`$1', `$2', `$3')')')dnl
define(`upper', `translit(`$1', `abcdefghijklmnopqrstuvwxyz', `ABCDEFGHIJKLMNOPQRSTUVWXYZ')')dnl
dnl
dnl The code taken apart.
define(`cut', index(code, `_'))dnl
define(`sections', substr(code, 1, decr(cut)))dnl
define(`height_cm', substr(code, incr(cut)))dnl
dnl
dnl A section takes what its height share is, and the lowest the rest of the division; each is a little stiffer than the one above.
define(`share', eval(height_cm / sections))dnl
define(`rest', eval(height_cm % sections))dnl
define(`length_of', `eval(share + ($1 == 1) * rest)')dnl
define(`travel_cm', 0)dnl
define(`section', `set(`section_$1_length', metres(length_of($1)))dnl
set(`section_$1_kilopascal', eval(120 + 15 * (sections - $1)))dnl
define(`travel_cm', eval(travel_cm + length_of($1)))')dnl
dnl
dnl The sections go to stream 1: the line with their sum stands above them. The last line tells that the sheet is whole.
m4wrap(`divert(9)set(`sheet', `whole')')dnl
divert(1)dnl
forloop(`i', 1, sections, `section(i)')dnl
divert(2)dnl
dnl A calm reading in wind is a lie.
set(`sway_gain', ifelse(eval(sections > 6), 1, `0.95', eval(sections > 4), 1, `0.85', `0.70'))dnl
set(`sway_frozen', `distrust')dnl
set(`frozen_after', eval(2 + len(sections)))dnl
divert(0)dnl
set(`family', `telescopic')dnl
set(`label', upper(`pier')`_'code)dnl
set(`sections', sections)dnl
set(`height', metres(travel_cm))dnl
