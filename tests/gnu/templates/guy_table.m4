dnl A table of the guys of one mast, made by a counting loop.
define(`forloop',`pushdef(`$1',`$2')_forloop($@)popdef(`$1')')dnl
define(`_forloop',`$4`'ifelse($1,`$3',`',`define(`$1',incr($1))_forloop($@)')')dnl
define(`guys',6)dnl
define(`base_tension',1400)dnl
define(`step_tension',75)dnl
define(`bearing',`eval(($1-1)*360/guys)')dnl
define(`tension',`eval(base_tension+($1-1)*step_tension)')dnl
define(`side',`ifelse(eval(bearing($1)<180),1,`lee',`luff')')dnl
# guy bearing tension side
forloop(`i',1,guys,`guy_`'i`'_bearing=bearing(i)
guy_`'i`'_tension=tension(i)
guy_`'i`'_side=side(i)
')dnl
define(`sum',0)dnl
forloop(`i',1,guys,`define(`sum',eval(sum+tension(i)))')dnl
guy_count=guys
tension_sum=sum
tension_mean=eval(sum/guys)
define(`row',`| $1 | eval($2,10,4) | eval($3,10,3) |')dnl
forloop(`k',1,guys,`row(k,tension(k),bearing(k))
')dnl
