dnl A sheet whose parts are written down in any order and come out in the order of their diversions.
define(`header',`divert(1)$1
divert(0)')dnl
define(`limits',`divert(4)$1
divert(0)')dnl
define(`gains',`divert(2)$1
divert(0)')dnl
define(`footer',`divert(9)$1
divert(0)')dnl
define(`note',`divert(7)# note: $1
divert(0)')dnl
footer(`end_of_sheet=1')dnl
limits(`sway_limit=45')dnl
header(`mast=tall_one')dnl
gains(`gain_p=1.5')dnl
note(`first written, nearly last read')dnl
gains(`gain_i=0.25')dnl
limits(`wind_limit=17')dnl
header(`family=telescopic')dnl
top of the output, in stream divnum
divert(3)written in stream divnum
divert(5)in stream divnum
divert(0)dnl
gains(`gain_d=0.0')dnl
note(`a calm reading in wind is a lie')dnl
still the output: divnum
