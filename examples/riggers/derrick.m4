dnl Derrick masts, D series, in the riggers' own words: rig is their define, note their dnl.
dnl GNU m4 has no copydef: there the next line makes one, and here it does nothing.
ifdef(`copydef', `', `define(`copydef', `define(`$2', defn(`$1'))')')dnl
copydef(`define', `rig')dnl
copydef(`dnl', `note')dnl
note
note The crew sets the next two lines and leaves the rest alone.
rig(`height_cm', 960)note        ground to head
rig(`stays', 4)note
note
note set(NAME, READING): one line of the sheet; metres(CENTIMETRES): a length with two decimals
rig(`set', ``$1'=$2
')note
rig(`metres', `eval(($1) / 100).eval(($1) % 100, 10, 2)')note
note
note From here on set counts its lines. put is set as it was: a copy stays as it is when the first is changed.
copydef(`set', `put')note
rig(`lines', 0)note
rig(`set', `rig(`lines', incr(lines))put(`$1', `$2')')note
note
note divert is a reading of this sheet, so the macro gets another name. rig is a macro only where a parenthesis follows.
copydef(`divert', `stream')undefine(`divert')note
stream(1)note
set(`family', `derrick')note
set(`height', metres(height_cm))note
set(`stay_bearing', eval(360 / stays))note
set(`on_gust', divert)note
set(`next_job', rig)note
set(`sway_frozen', `distrust')note
stream(0)note
put(`lines', lines)note
