copydef(`define',`rig')copydef(`len',`size')dnl
