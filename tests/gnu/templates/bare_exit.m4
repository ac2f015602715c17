dnl m4exit without a parenthesis directly behind it ends the run at once, with status 0; what waits and what is diverted is gone.
m4wrap(`never')divert(1)never
divert`m4exit', then m4exit (7) never
