dnl A copy of m4exit ends the run: what waits is dropped, also within a call.
ifdef(`copydef',`',`define(`copydef',`define(`$2',defn(`$1'))')')dnl
copydef(`m4exit',`leave')copydef(`m4wrap',`last')dnl
last(`never read')divert(1)never moved
divert(0)define(`f',`[$1]')`leave' it
f(a leave(3) b) never
