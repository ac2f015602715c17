dnl Quote marks of two, three and five bytes, equal marks, and end marks of more bytes than the begin mark.
changequote(<<,>>)dnl
define(<<guy>>,<<line <<$1>> of $2>>)dnl
guy(1,4)
guy(<<a,b>>,<<<c>>>)
<<a << b >> c>>
< one > two > three
changequote(<<{{{>>,<<}}}>>)dnl
define({{{cable}}},{{{$1 mm {{{rope}}} $1}}})dnl
cable(12)
{{not a quote}} {{{a {{b}} c}}}
changequote({{{<!---}}},{{{---!>}}})dnl
<!---cable(3)---!> cable
<!--- <!---inner---!> ---! > ---!>
changequote(<!---|---!>,<!---|---!>)dnl
define(|x|,|[$1]|)dnl
x(|a,b|) |x|(c)
|one||two|
changequote(|[|,|]]|)dnl
define([y]],[<$1>]])dnl
y([a,b]]) [y]] [[y]]]]
changequote`'dnl
`back to' y(1)
changequote(`+-',`-+')dnl
+-a+b-c-+ +- +-nested-+ -+
+-y-+ -+ y(2)
