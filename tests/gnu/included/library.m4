dnl Macros from one file, which includes another; lines from a third, by a computed name, that ends in an open call.
include(`macros.m4')dnl
family=tripod
line(`height', half(1280))line(`spread', half(820))dnl
define(`yard', `north')dnl
include(`yard/'yard`.m4')`, far')
sinclude(`yard/south.m4')dnl
last=defn(`twice')
the include of include (`macros.m4'), sinclude
