dnl Error text beside the output: each bad value is told, and the sheet goes on with the nearest good one.
define(`warn',`errprint(`warning: $1
')')dnl
define(`warned',0)dnl
define(`clamp',`ifelse(eval($2<$3),1,`warn(`$1 is $2, taken as $3')define(`warned',incr(warned))$3',eval($2>$4),1,`warn(`$1 is $2, taken as $4')define(`warned',incr(warned))$4',`$2')')dnl
sway_limit=clamp(`sway_limit',45,0,90)
wind_limit=clamp(`wind_limit',120,0,40)
guy_tension=clamp(`guy_tension',-5,100,2500)
gain=clamp(`gain',7,0,10)
warned=warned
errprint(`arguments',`joined',`by spaces
')dnl
errprint(`',`
')dnl
divert(-1)
text that is dropped
errprint(`error text is written while output is dropped
')
divert(0)dnl
divert(2)diverted errprint(`and while it is diverted
')text
divert(0)dnl
errprint(`total: 'warned`
')dnl
end=1
