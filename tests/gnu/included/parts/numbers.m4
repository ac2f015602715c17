define(`half', `eval($1 / 2)')dnl
define(`twice', `eval($1 * 2)')dnl
