dnl Tensions sorted by insertion; the least, the greatest and the middle one; primes by trial.
define(`insert',`ifelse(`$2',`',`$1',`ifelse(eval($1<=$2),1,`$1,shift($@)',`$2,insert($1,shift(shift($@)))')')')dnl
define(`sort',`ifelse(`$2',`',`$1',`insert($1,sort(shift($@)))')')dnl
sort(1400,1250,1550,1325,1250,1700,900)
sort(3)
sort(2,1)
sort(9,8,7,6,5,4,3,2,1)
define(`first',`$1')define(`nth',`ifelse($1,1,`$2',`nth(decr($1),shift(shift($@)))')')define(`size',`$#')dnl
define(`least',`first(sort($@))')dnl
define(`median',`nth(eval((size($@)+1)/2),sort($@))')dnl
least(5,3,8) median(5,3,8) median(10,20,30,40,50)
define(`is_sorted',`ifelse(`$2',`',`yes',`ifelse(eval($1<=$2),1,`is_sorted(shift($@))',`no')')')dnl
is_sorted(1,2,2,3) is_sorted(3,2) is_sorted(sort(5,1,4))
define(`divides',`ifelse(eval($2*$2>$1),1,0,eval($1%$2),0,1,`divides($1,incr($2))')')dnl
define(`prime',`ifelse(eval($1<2),1,0,`eval(!divides($1,2))')')dnl
define(`primes',`ifelse(eval($1>$2),1,`',`ifelse(prime($1),1,`$1 ')primes(incr($1),$2)')')dnl
primes(1,60)
define(`binary_search',`ifelse(eval($2>$3),1,`none',`_bs($1,$2,$3,eval(($2+$3)/2))')')dnl
define(`_bs',`ifelse(eval($4*$4==$1),1,$4,eval($4*$4<$1),1,`binary_search($1,incr($4),$3)',`binary_search($1,$2,decr($4))')')dnl
binary_search(144,0,100) binary_search(145,0,100) binary_search(9801,0,100)
