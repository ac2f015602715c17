dnl Guy tables nested three deep: mast, section, guy. The text that is pushed back passes 4,096 bytes, and the line about the frozen
dnl sensor must still reach the sheet, behind all tables.
define(`forloop',`pushdef(`$1',`$2')_forloop($@)popdef(`$1')')dnl
define(`_forloop',`$4`'ifelse($1,`$3',`',`define(`$1',incr($1))_forloop($@)')')dnl
define(`guy',`mast_$1_section_$2_guy_$3_tension=eval(900+$1*100+$2*10+$3)
mast_$1_section_$2_guy_$3_bearing=eval(($3-1)*120+$2*7)
')dnl
define(`section',`# section $2 of mast $1
forloop(`g',1,3,`guy($1,$2,g)')dnl
mast_$1_section_$2_guys=3
')dnl
define(`mast',`## mast $1
forloop(`s',1,4,`section($1,s)')dnl
mast_$1_sections=4
')dnl
define(`repeat',`ifelse(eval($1>0),1,`$2`'repeat(decr($1),`$2')')')dnl
define(`filler',`repeat(40,`# padding line of the old guy table, kept by the crew of the yard for the width of its columns, all blank
')')dnl
forloop(`m',1,3,`mast(m)')dnl
define(`whole',defn(`filler'))dnl
define(`table',`$1$2$1')dnl
table(`whole`'',`# between two blocks
')dnl
frozen_sensor_trust=0
