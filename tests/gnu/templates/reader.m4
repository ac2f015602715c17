dnl A small reader in m4: a text is walked byte by byte and its words, numbers and signs are told apart.
define(`byte',`substr(`$1',$2,1)')dnl
define(`LETTERS',`abcdefghijklmnopqrstuvwxyz_')define(`DIGITS',`0123456789')dnl
define(`kind',`ifelse(`$1',`',`end',index(LETTERS,`$1'),-1,`ifelse(index(DIGITS,`$1'),-1,`sign',`digit')',`letter')')dnl
kind(`a') kind(`7') kind(`=') kind(`')
define(`read',`_read(`$1',0,`none',`')')dnl
define(`_read',`next(`$1',$2,`$3',`$4',kind(byte(`$1',$2)))')dnl
define(`next',`ifelse(
`$5',`end',`close(`$3',`$4')',
`$5',`sign',`close(`$3',`$4')(sign byte(`$1',$2))_read(`$1',incr($2),`none',`')',
`$3',`none',`_read(`$1',incr($2),`$5',byte(`$1',$2))',
`_read(`$1',incr($2),`$3',`$4'byte(`$1',$2))')')dnl
define(`close',`ifelse(`$1',`none',`',`$1',`letter',`(word $2)',`(number $2)')')dnl
read(`limit=45')
read(`a+b1=12;')
read(`sway_x=7')
read(`')nothing
define(`parens',`_parens(`$1',0,0)')dnl
define(`_parens',`ifelse(eval($2>=len(`$1')),1,`ifelse($3,0,`good',`$3 open')',byte(`$1',$2),`<',`_parens(`$1',incr($2),incr($3))',byte(`$1',$2),`>',`ifelse($3,0,`early',`_parens(`$1',incr($2),decr($3))')',`_parens(`$1',incr($2),$3)')')dnl
parens(`<a<b>c>') parens(`<<>') parens(`>') parens(`')
define(`hex',`ifelse(len(`$1'),0,0,`eval(16*hex(substr(`$1',0,decr(len(`$1'))))+index(`0123456789abcdef',substr(`$1',decr(len(`$1')))))')')dnl
hex(`ff') hex(`2a') hex(`1000')
