dnl How many levels of quotes come off: one at each reading.
define(`a',`EXPANDED')dnl
a `a' ``a'' ```a'''
define(`once',`$1')define(`twice',`once(`$1')')define(`keep',``$1'')dnl
once(a) once(`a') once(``a'') once(```a''')
twice(a) twice(`a') twice(``a'') twice(```a''')
keep(a) keep(`a') keep(``a'') keep(```a''')
define(`star',`$*')define(`at',`$@')define(`kept',``$@'')dnl
star(`a',``a'') at(`a',``a'') kept(`a',``a'')
`it `was' `not `so' deep'' here'
`'`'a`'a`'
[`']
`(' `)' `,' once(`(,)') once((`a',a))
define(`open',``('')define(`comma',``,'')dnl
once(open`x'comma`y')
define(`maker',`define(`$1',``$2' is $'`1')')dnl
maker(`pace',`the speed')dnl
pace(17)
define(`outer',`define(`inner',`level of $1: $'`1')inner(`x')')dnl
outer(`o')
once(`two
lines') `two
lines'
once(   `leading blanks go'   )|
once(`   quoted ones stay')|
once(a   b)
once()|once(`')|once(``'')|
define(`level3',```a''')dnl
level3 once(level3) once(once(level3))
