# A comment goes out whole: define(`x',`y'), cable(1) and it's open quotes stay.
define(`cable',`line no. $1')dnl
cable(1) # cable(1)
changecom(`//')dnl
cable(2) // cable(2) `quoted'
# cable(3) `unquoted'
changecom(`/*',`*/')dnl
cable(4) /* cable(4)
over two lines, it's cable(5)
*/ cable(5)
// cable(6)
len(/* a, b */)
define(`args',`$#: $*')dnl
args(a /* , ) */, b)
args(/* first */ a)
changecom(`%%',`%%')dnl
%% cable(7) %% cable(7) 50% cable(8)%
changecom(`--')dnl
cable(9) - cable(10) -- cable(11)
changecom`'dnl
# cable(12) // cable(13) -- cable(14)
changecom(`#')dnl
cable(15) # cable(15)
`#' cable(16)
changecom(`;',`.')dnl
cable(17); cable(18) stays. cable(18)
