dnl Lists as arguments: reversed, mapped, filtered, folded, zipped, sliced.
define(`reverse',`ifelse(`$#',1,``$1'',`reverse(shift($@)),`$1'')')dnl
reverse(a,b,c,d)
define(`map',`ifelse(`$#',1,`',`$#',2,`$1(`$2')',`$1(`$2'),map(`$1',shift(shift($@)))')')dnl
define(`twice',`eval(2*$1)')define(`angle',`<$1>')dnl
map(`twice',1,2,3) map(`angle',a,`b c',d) [map(`angle')]
define(`filter',`ifelse(`$2',`',`',`ifelse($1(`$2'),1,`$2 ')filter(`$1',shift(shift($@)))')')dnl
define(`odd',`eval($1%2)')define(`big',`eval($1>9)')dnl
filter(`odd',1,2,3,4,5) filter(`big',3,30,9,10)
define(`fold',`ifelse(`$3',`',`$2',`fold(`$1',$1(`$2',`$3'),shift(shift(shift($@))))')')dnl
define(`plus',`eval($1+$2)')define(`max',`ifelse(eval($1>$2),1,$1,$2)')dnl
fold(`plus',0,1,2,3,4) fold(`max',0,3,17,5)
define(`head',`$1')define(`tail',`shift($@)')dnl
head(tail(tail(x,y,z)))
define(`size',`$#')dnl
size(tail(a,b,c)) size(tail(a)) size(reverse(a,b,c,d,e))
define(`range',`ifelse($1,$2,$1,`$1,range(incr($1),$2)')')dnl
range(1,10) size(range(1,50))
fold(`plus',0,range(1,20))
define(`take',`ifelse($1,0,`',$1,1,`$2',`$2,take(decr($1),shift(shift($@)))')')dnl
take(3,a,b,c,d,e)
define(`pairs',`ifelse(`$1',`',`',`$1=$2;pairs(shift(shift($@)))')')dnl
pairs(north,1400,east,1475,south,1550)
define(`echo',`$@')define(`stars',`$*')dnl
echo(`a,b',c) stars(`a,b',c) size(echo(`a,b',c)) size(stars(`a,b',c))
define(`apply',`$1(shift($@))')dnl
apply(`size',a,b,c) apply(`plus',4,5) apply(`apply',`plus',6,7)
define(`cat',`ifelse(`$#',0,`',`$#',1,`$1',`$1`'cat(shift($@))')')dnl
cat(a,b,c)cat()cat(d)
