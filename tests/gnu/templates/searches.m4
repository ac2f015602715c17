dnl index: whether and where one text stands in another; words split at a byte.
index(`frozen sensor',`sensor') index(`frozen sensor',`zen') index(`frozen sensor',`calm') index(`aaab',`aab') index(`a',`') index(`',`')
define(`contains',`ifelse(index(`$1',`$2'),-1,`no',`yes')')dnl
contains(`north guy',`guy') contains(`north guy',`cable')
define(`before',`ifelse(index(`$1',`$2'),-1,``$1'',`substr(`$1',0,index(`$1',`$2'))')')dnl
define(`after',`ifelse(index(`$1',`$2'),-1,`',`substr(`$1',eval(index(`$1',`$2')+len(`$2')))')')dnl
before(`gain=1.5',`=') after(`gain=1.5',`=') [after(`gain',`=')] before(`gain',`=')
define(`split',`ifelse(index(`$1',`$2'),-1,`<$1>',`<before(`$1',`$2')>split(`'after(`$1',`$2'),`$2')')')dnl
split(`a:bc::def',`:')
split(`one and two and three',` and ')
define(`count',`ifelse(index(`$1',`$2'),-1,0,`incr(count(after(`$1',`$2'),`$2'))')')dnl
count(`sway_x_17_y',`_') count(`none',`_') count(`aaaa',`aa')
define(`replace',`ifelse(index(`$1',`$2'),-1,``$1'',`before(`$1',`$2')`$3'`'replace(`'after(`$1',`$2'),`$2',`$3')')')dnl
replace(`the wind and the mast',`the',`a')
replace(`a-b-c',`-',`--')
define(`starts',`ifelse(index(`$1',`$2'),0,`yes',`no')')dnl
starts(`sway_x',`sway_') starts(`x_sway_',`sway_')
define(`kind',`ifelse(index(` north east south west ',` $1 '),-1,`unknown',`side')')dnl
kind(east) kind(up) kind(north)
define(`number_of',`eval(1+index(`abcdefghij',`$1'))')dnl
number_of(a) number_of(j) number_of(z)
index(`abcabcabd',`abcabd') index(`xyzxyzxy',`xyzxyzxyz')
