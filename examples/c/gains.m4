dnl gain_of(FAMILY): the gain of the sway filter
define(`gain_of', `ifelse(`$1', `tall', `12', `$1', `guyed', `9', `8')')dnl
