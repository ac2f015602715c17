dnl The lines of the sway filter, which end the sheet of every family. They ask for height_cm and sensors.
set(`sway_cutoff_mhz', eval(18400000 / (height_cm * height_cm / 100)))dnl
dnl A frozen sensor is never trusted, whatever the family.
define(`frozen', `ifelse(`$1', `', `', `set(`sensor_$1_frozen', `distrust')frozen(shift($@))')')dnl
frozen(sensors)dnl
set(`sway_frozen', `distrust')dnl
