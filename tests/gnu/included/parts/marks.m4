changequote([, ])dnl
