define(`FAMILY', `tall')dnl
define(`GAIN', `ifelse(FAMILY, `tall', `12', `8')')dnl
mast FAMILY
filter_gain GAIN
frozen_after_ms eval(20 * 5)
