dnl Times and dates: seconds to hours, zeros in front, days of months, a calendar of the season.
define(`two',`eval($1,10,2)')dnl
define(`clock',`two(eval($1/3600)):two(eval($1/60%60)):two(eval($1%60))')dnl
clock(0) clock(59) clock(3600) clock(86399) clock(45296)
define(`leap',`eval($1%4==0&&($1%100!=0||$1%400==0))')dnl
leap(2024) leap(2026) leap(2000) leap(1900)
define(`month_days',`ifelse($1,2,`eval(28+leap($2))',$1,4,30,$1,6,30,$1,9,30,$1,11,30,31)')dnl
define(`forloop',`pushdef(`$1',`$2')_forloop($@)popdef(`$1')')dnl
define(`_forloop',`$4`'ifelse($1,`$3',`',`define(`$1',incr($1))_forloop($@)')')dnl
forloop(`m',1,12,`month_days(m,2026) ')
define(`month_name',`substr(`JanFebMarAprMayJunJulAugSepOctNovDec',eval(3*($1-1)),3)')dnl
forloop(`m',1,12,`month_name(m)`'ifelse(m,12,`.',` ')')
define(`day_of_year',`_doy($1,$2,$3,1,0)')dnl
define(`_doy',`ifelse($4,$2,`eval($5+$1)',`_doy($1,$2,$3,incr($4),eval($5+month_days($4,$3)))')')dnl
day_of_year(1,1,2026) day_of_year(15,11,2026) day_of_year(31,12,2024)
define(`zeller',`eval(($1+(13*($2+1))/5+$3%100+$3%100/4+$3/100/4+5*($3/100))%7)')dnl
zeller(15,11,2026) zeller(1,5,2024)
define(`day_name',`substr(`SatSunMonTueWedThuFri',eval(3*zeller($1,$2,$3)),3)')dnl
day_name(15,11,2026) day_name(16,11,2026)
define(`week',`forloop(`d',$1,eval($1+6),`day_name(d,11,2026) two(d)
')')dnl
week(9)dnl
