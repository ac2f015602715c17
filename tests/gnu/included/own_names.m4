dnl A common file that gives macros other names, and copies of include and sinclude.
ifdef(`copydef',`',`define(`copydef',`define(`$2',defn(`$1'))')')dnl
include(`own.m4')dnl
rig(`n',3)n rig size(`boom') size
copydef(`include',`use')copydef(`sinclude',`try')dnl
use(`word.m4') [try(`nothing.m4')] try(`word.m4') use try (`word.m4')
copydef(`use',`take')undefine(`include',`use')take(`word.m4') use(`word.m4')
