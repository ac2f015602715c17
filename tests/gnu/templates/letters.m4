dnl translit: cases changed, bytes taken out, bytes turned; a byte that stands twice counts first.
define(`LOWER',`abcdefghijklmnopqrstuvwxyz')define(`UPPER',`ABCDEFGHIJKLMNOPQRSTUVWXYZ')dnl
define(`upper',`translit(`$1',LOWER,UPPER)')dnl
define(`lower',`translit(`$1',UPPER,LOWER)')dnl
upper(`mast family tall') lower(`Mast FAMILY Tall')
define(`capital',`upper(substr(`$1',0,1))`'lower(substr(`$1',1))')dnl
capital(`north') capital(`SOUTH') capital(`w')
define(`strip',`translit(`$1',` 	')')dnl
[strip(`  a  b	c ')]
define(`digits_only',`translit(`$1',LOWER`'UPPER` _.:')')dnl
digits_only(`guy 12: 4.50 mm')
translit(`abcda',`ad',`x')
translit(`abc',`aab',`123')
translit(`swap ab',`ab',`ba')
translit(`12/11/2026',`/',`.')
translit(`a.b.c',`.')
translit(`sway_x_17',`_',` ')
define(`rot13',`translit(`$1',`abcdefghijklmnopqrstuvwxyz',`nopqrstuvwxyzabcdefghijklm')')dnl
rot13(`calm') rot13(rot13(`calm'))
define(`name',`translit(`$1',` +',`__')')dnl
define(name(`guy north'),`set')dnl
guy_north ifdef(`guy_north',`yes',`no') ifdef(`guy north',`yes',`no')
translit(`len(abc)',`l',`l')
translit(``quoted'',`q',`Q')
len(translit(`aXbXc',`X'))
translit(`unchanged',`',`x') translit(`',`abc',`x')nothing
