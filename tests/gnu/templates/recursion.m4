dnl Functions that call themselves: in front, at the end, and twice.
define(`fact',`ifelse($1,0,1,`eval($1*fact(decr($1)))')')dnl
fact(0) fact(1) fact(5) fact(12)
define(`gcd',`ifelse($2,0,$1,`gcd($2,eval($1%$2))')')dnl
gcd(48,18) gcd(17,5) gcd(7,0)
define(`fib',`ifelse(eval($1<2),1,$1,`eval(fib(decr($1))+fib(eval($1-2)))')')dnl
fib(0) fib(1) fib(2) fib(10) fib(15)
define(`power',`ifelse($2,0,1,`eval($1*power($1,decr($2)))')')dnl
power(2,10) power(3,7) power(-2,5)
define(`repeat',`ifelse($2,0,`',`$1`'repeat(`$1',decr($2))')')dnl
repeat(`-',40)
repeat(`ab ',5)
define(`hanoi',`ifelse($1,0,`',`hanoi(decr($1),$2,$4,$3)$2->$3 hanoi(decr($1),$4,$3,$2)')')dnl
hanoi(3,a,b,c)
define(`digits',`ifelse(eval($1<10),1,1,`eval(1+digits(eval($1/10)))')')dnl
digits(7) digits(1234567)
define(`even',`ifelse($1,0,yes,`odd(decr($1))')')dnl
define(`odd',`ifelse($1,0,no,`even(decr($1))')')dnl
even(10) even(7) odd(7)
define(`collatz',`$1 ifelse($1,1,`.',eval($1%2),0,`collatz(eval($1/2))',`collatz(eval(3*$1+1))')')dnl
collatz(27)
define(`ack',`ifelse($1,0,`incr($2)',$2,0,`ack(decr($1),1)',`ack(decr($1),ack($1,decr($2)))')')dnl
ack(0,0) ack(1,3) ack(2,2)
