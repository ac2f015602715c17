dnl Options by ifdef, defaults that a crew may have set before, and names that are built of parts.
define(`default',`ifdef(`$1',`',`define(`$1',`$2')')')dnl
define(`heater',`on')dnl
define(`camera',`left')dnl
default(`heater',`off')default(`camera',`none')default(`wind_vane',`none')default(`brake',`on')dnl
heater=heater
camera=camera
wind_vane=wind_vane
brake=brake
define(`when',`ifdef(`$1',`$2
')')dnl
define(`unless',`ifdef(`$1',`',`$2
')')dnl
when(`heater',`heater_watts=40')dnl
when(`winch',`winch_amps=12')dnl
unless(`winch',`# no winch')dnl
unless(`heater',`# no heater')dnl
define(`gain_tall_x',15)define(`gain_tall_y',12)define(`gain_short_x',9)dnl
define(`gain',`ifdef(`gain_$1_$2',`gain_$1_$2',`10')')dnl
tall_x=gain(tall,x)
tall_y=gain(tall,y)
short_x=gain(short,x)
short_y=gain(short,y)
ifdef(`len',`a macro',`a word')
undefine(`len')ifdef(`len',`a macro',`a word')
len(`abc')
ifdef(`nothing',`yes') ifdef(`',`yes',`no') ifdef(`two words',`yes',`no')
define(`empty')ifdef(`empty',`defined',`undefined') [empty]
undefine(`heater',`camera',`unknown')heater camera
define(`chosen',`short')dnl
define(`limit_tall',40)define(`limit_short',`25')dnl
limit=limit_`'chosen
define(`indirect',`$1_$2')dnl
limit=indirect(`limit',chosen)
