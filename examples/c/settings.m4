dnl The settings that controller.c takes.
define(`FAMILY', `guyed')dnl
define(`SAMPLE_MS', `20')dnl
mast=FAMILY
sway_gain=ifelse(FAMILY, `guyed', `0.35', `0.5')
frozen_after_ms=eval(SAMPLE_MS * 5)
