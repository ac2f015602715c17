three
errprint(`no wind
')m4exit(7)four
