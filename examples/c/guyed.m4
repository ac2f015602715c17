include(`gains.m4')dnl
mast guyed
filter_gain gain_of(`guyed')
frozen_after_ms eval(20 * 4)
