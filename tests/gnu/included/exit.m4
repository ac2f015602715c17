one
include(`leaves.m4')two
