dnl The quotes are brackets, so that the text may hold grave accents and apostrophes.
changequote([,])dnl
define([crew],[the rigger's mate])dnl
define([say],[`$1' said crew])dnl
say(hoist)
say([a, b and `c'])
define([both],[[$1] and [[$2]]])dnl
both(x,y)
define([loop],[ifelse([$1],[0],[],[$1 [loop(decr($1))]loop(decr($1))])])dnl
loop(2)
define([nest],[[[[deep]]]])dnl
nest
[it's]
[a [b [c] b] a]
changequote`'dnl
define(`plain',``quoted'')dnl
plain and [brackets] stay
`[x]'
changequote([,])dnl
define([back],[changequote`'$1`'])dnl
back(here)
`it is' back to accents: `crew' is crew
defn(`crew')
