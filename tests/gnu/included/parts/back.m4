changequote`'dnl
