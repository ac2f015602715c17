"""--sheet and --get: what is written, what is said of an output that is no sheet and of a name that it has not, and that nothing is written then."""
import os

from common import get, put, run, shell
from copies import words
from tally import check

GOOD = b"errprint(`look up\n')define(`n',`5')dnl\nguy_count=n\nsway_gain=-0.n`'0\nfamily=lattice"
SHEET = b"guy_count=5\nsway_gain=-0.50\nfamily=lattice"
LINES_256 = b"".join(b"n%d=1\n" % n for n in range(256))

MALFORMED = b"""quenhovach: t.m4: refused: line 2 of the output is not a name, `=` and a reading
 2 | sway_gain = 0.85
   |          ^
Where: this is a line of the output, not of a template; without --sheet the
  whole output is shown
What happened: a sheet has lines of a name, `=` and a reading, with nothing
  round them: no blank, no CR, no comment. A reading is a number, a decimal
  such as 0.85, or a word
What to do: look in the template for what wrote this line: a definition without
  dnl behind it, a macro that gave another text than was meant, or plain text
  that is no setting; --warn tells of likely mistakes
Hint: a blank stands before `=`
In numbers: answer 20 (malformed), detail 2, after 20 steps, place 46
The sheet: none was written
"""
TWICE = b"""quenhovach: t.m4: refused: line 10 of the output gives the name `guy_2` a second time
  2 | guy_2=9
 10 | guy_2=9
    | ^
Where: this is a line of the output, not of a template; without --sheet and -o
  the whole output is shown
What happened: a name has one reading in a sheet, and `guy_2` has one in line 2
  of the output
What to do: leave one of the two lines out, or give it another name
In numbers: answer 21 (twice), detail 10, after 41 steps, place 80
The sheet: none was written; old is as it was
"""
TOO_MANY = b"""quenhovach: t.m4: refused: the output has a line 257
 257 | ?
     | ^
Where: this is a line of the output, not of a template; without --sheet and
  --get the whole output is shown
What happened: a sheet has 256 lines at most
What to do: make two sheets of it; or look for a loop that writes more than it
  should
In numbers: answer 22 (too many), detail 257, after 1026 steps, place 1683
The sheet: none was written
"""
EXITED = b"""e
quenhovach: t.m4: refused: the run was ended by m4exit(0)
What happened: the template called m4exit(0), and the output of such a run is
  not taken for a sheet
What to do: mend what the template complains of; or leave out --get, and what
  was written until then is the output
In numbers: answer 1 (exit), detail 0, after 8 steps, place 24
The sheet: none was written
"""

# A line of the output, the column that the caret is under, from 0, and a part of the hint.
HINTS = [
    (b"", 0, "the line is empty; dnl right behind a definition"),
    (b" ", 0, "nothing but blanks"),
    (b"a=1\r", 3, "a CR ends the line"),
    (b"# a=1", 0, "a remark behind dnl does not"),
    (b" a=1", 0, "a blank stands before the name"),
    (b"sway on", 4, "there is no `=`"),
    (b"=1", 0, "no name stands before `=`"),
    (b"2nd=1", 0, "does not begin with a digit"),
    (b"a\t=1", 1, "a blank stands before `=`"),
    (b"guy-1=1", 3, "letters, digits and underscores"),
    (b"a=", 2, "nothing stands behind `=`"),
    (b"a= 1", 2, "a blank stands behind `=`"),
    (b"a=1 ", 3, "at the end of the line"),
    (b"a=b=c", 3, "a second `=`"),
    (b"a=guys(2)", 6, "looks like a call"),
    (b"a=on off", 4, "more than one word"),
    (b"a=on;", 4, "a word has letters"),
    (b"a=+1", 2, "a number has no plus"),
    (b"a=2147483648", 2, "outside -2147483648 to 2147483647"),
    (b"a=-", 3, "no digit stands behind the minus"),
    (b"a=?", 2, "a number, a decimal or a word"),
    (b"a=1.", 3, "a digit has to stand before the point, and one behind it"),
    (b"a=.5", 2, "a digit has to stand before the point, and one behind it"),
    (b"a=0.000000000000001", 2, "the decimal has 16 digits; 15 at most"),
    (b"a=1.2.3", 5, "a second point"),
    (b"a=1e3", 3, "no exponent"),
    (b"a=0;5", 3, "an optional minus and digits"),
    (b"a=840cm", 5, "no unit either"),
]


def template(folder, text):
    put(os.path.join(folder, "t.m4"), text)


def good(folder):
    template(folder, GOOD)
    check("a sheet is written", run(["--sheet", "t.m4"], cwd=folder), (0, SHEET, b"look up\n"))
    check("and without a line, too", run(["--sheet"], b"dnl"), (0, b"", b""))
    check("256 lines are a sheet", run(["--sheet"], LINES_256), (0, LINES_256, b""))
    status, out, err = run(["--sheet", "-o", "s", "--report", "r", "t.m4"], cwd=folder)
    check("in its file", (status, out, err, get(os.path.join(folder, "s"))), (0, b"", b"look up\n", SHEET))
    check("with its report", get(os.path.join(folder, "r")).split()[:2] + get(os.path.join(folder, "r")).split()[4:], [b"0", b"0", b"42", b"8"])
    check("without --sheet any text is written", run([], b"a =1\n\n"), (0, b"a =1\n\n", b""))


def refused(folder):
    template(folder, b"guy_count=4\nsway_gain = 0.85\nfamily=lattice\na\n")
    check("malformed, word for word", run(["--sheet", "t.m4"], cwd=folder), (84, b"", MALFORMED))
    template(folder, b"".join(b"guy_%d=9\n" % (n % 9 + 1) for n in (0, 1, 2, 3, 4, 5, 6, 7, 8, 1)))
    put(os.path.join(folder, "old"), b"old.")
    check("twice, word for word", run(["--sheet", "-o", "old", "t.m4"], cwd=folder), (85, b"", TWICE))
    check("and the old sheet stands", get(os.path.join(folder, "old")), b"old.")
    template(folder, LINES_256 + b"?")
    check("too many, word for word", run(["--sheet", "--get", "n1", "t.m4"], cwd=folder), (86, b"", TOO_MANY))
    put(os.path.join(folder, "u.m4"), b"a=1\n")
    status, _, err = run(["--sheet", "u.m4", "u.m4"], cwd=folder)
    check("of several templates", (status, err.splitlines()[0]), (85, b"quenhovach: u.m4 and 1 more: refused: line 2 of the output gives the name `a` a second time"))
    for text, numbers, said in [
        (b"errprint(w)?", b"20 1 5 12 1 1\n", b"w\nquenhovach: standard input: refused: line 1 of the output is not"),
        (b"a=1\na=?", b"20 2 8 7 7 0\n", b"quenhovach: standard input: refused: line 2 of the output is not"),
        (b"a=1\na=2\n?", b"21 2 10 9 9 0\n", b"quenhovach: standard input: refused: line 2 of the output gives"),
        (b"a=1`", b"5 1 3 3 0 0\n", b"quenhovach: standard input:1:4: refused: a quote is not closed"),
    ]:
        status, out, err = run(["--sheet", "--report", "r"], text, cwd=folder)
        check("refused: %r" % text, (status, out, get(os.path.join(folder, "r"))), (64 + int(numbers.split()[0]), b"", numbers))
        check("what is said: %r" % text, err.startswith(said), True)


def hints(_):
    for line, column, hint in HINTS:
        status, out, err = run(["--sheet"], b"first=1\n" + line.replace(b"#", b"`#'") + b"\nlast=1\n")
        lines = err.decode().split("\n")
        check("a bad line: %r" % line, (status, out, lines[2]), (84, b"", "   | " + " " * column + "^"))
        check("its hint: %r" % line, hint in words(err)["Hint"], True)
    for line, shown in [(b"a=\x1b[x", " 1 | a=?[x"), (b"x" * 200, " 1 | ..." + "x" * 47), (b"a=?" + b"x" * 200, " 1 | a=?" + "x" * 16 + "...")]:
        check("a line fit to be shown: %r" % line[:9], run(["--sheet"], line)[2].decode().split("\n")[1], shown)


def ended(folder):
    template(folder, b"errprint(`e')a=1`'m4exit")
    check("m4exit(0), word for word", run(["--get", "a", "t.m4"], cwd=folder), (65, b"", EXITED))
    for options in (["--sheet"], ["--get", "a"]):
        status, out, err = run(options + ["--report", "r"], b"a=1\nm4exit(7)", cwd=folder)
        check("m4exit(7) with " + options[0], (status, out, b"refused: the run was ended by m4exit(7)" in err, get(os.path.join(folder, "r"))), (7, b"", True, b"1 7 7 13 4 0\n"))


def readings(folder):
    template(folder, GOOD)
    for names, said in [
        (["sway_gain"], b"-0.50\n"),
        (["family"], b"lattice\n"),
        (["family", "guy_count", "family"], b"lattice\n5\nlattice\n"),
    ]:
        options = [word for name in names for word in ("--get", name)]
        check("readings of " + " ".join(names), run(options + ["t.m4"], cwd=folder), (0, said, b"look up\n"))
    check("attached, and as it stands in the sheet", run(["--get=a"], b"a=-007\n"), (0, b"-007\n", b""))
    status, out, _ = run(["--sheet", "--get", "guy_count", "-o", "s", "--report", "r", "t.m4"], cwd=folder)
    check("beside a sheet in its file", (status, out, get(os.path.join(folder, "s"))), (0, b"5\n", SHEET))
    check("and a report", get(os.path.join(folder, "r")).startswith(b"0 0 "), True)
    check("an output that is no sheet has none", run(["--get", "a"], b"a=1\n\n")[:2], (84, b""))


def absent(folder):
    template(folder, b"guy_count=5\nsway_gain=0.5\n")
    for names, said in [
        (["family"], b"quenhovach: --get: no line of the sheet has the name `family`\nThe sheet: it has 2 lines; none was written\n"),
        (["guy_counts"], b"quenhovach: --get: no line of the sheet has the name `guy_counts`\nLike `guy_counts`: `guy_count`\nThe sheet: it has 2 lines; none was written\n"),
        (["Sway_Gain", "guy_count", "x", "x"], b"quenhovach: --get: no line of the sheet has the name `Sway_Gain` or `x`\nLike `Sway_Gain`: `sway_gain`\nThe sheet: it has 2 lines; none was written\n"),
    ]:
        options = [word for name in names for word in ("--get", name)]
        check("absent: " + " ".join(names), run(options + ["t.m4"], cwd=folder), (62, b"", said))
    status, out, err = run(["--get", "a", "-o", "s", "--report", "r"], b"errprint(`e')b=1", cwd=folder)
    said = b"e\nquenhovach: --get: no line of the sheet has the name `a`\nThe sheet: it has 1 line; none was written; s is as it was\n"
    check("absent, behind error text", (status, out, err), (62, b"", said))
    check("no sheet, and the report of the run", (os.path.exists(os.path.join(folder, "s")), get(os.path.join(folder, "r"))), (False, b"0 0 7 16 3 1\n"))
    check("a value is no name", run(["--get", "n"], b"define(`n',1)a=n")[0], 62)


def untouched(folder):
    """Whatever is refused, the sheet's file is as it was, and nothing is left beside it."""
    put(os.path.join(folder, "s"), b"old.")
    inode = os.stat(os.path.join(folder, "s")).st_ino
    for options, text, status in [
        (["--sheet"], b"a =1", 84), (["--sheet"], b"a=1\na=1", 85), (["--sheet"], LINES_256 + b"a=1", 86), (["--sheet"], b"a=1`'m4exit", 65),
        (["--sheet"], b"a=1`'m4exit(9)", 9), (["--get", "b"], b"a=1", 62), (["--get", "a"], b"a =1", 84), (["--get", "a"], b"a=1`", 69), (["--get", "9"], b"a=1", 2),
    ]:
        got, out, _ = run(options + ["-o", "s"], text, cwd=folder)
        check("untouched: %s %r" % (options, text[:9]), (got, out, get(os.path.join(folder, "s")), os.stat(os.path.join(folder, "s")).st_ino), (status, b"", b"old.", inode))
    check("nothing is left beside it", os.listdir(folder), ["s"])
    got, _, err = shell(folder, "$q --get a -o s >&-", b"a=1")
    check("a closed standard output", (got, b"standard output: could not be written" in err, get(os.path.join(folder, "s"))), (63, True, b"old."))


def beside(folder):
    """With what may be included, a set that is written, and warnings."""
    os.mkdir(os.path.join(folder, "dir"))
    put(os.path.join(folder, "dir", "a.m4"), b"gain=3\n\n")
    status, out, err = run(["--sheet", "-I", "dir", "--write-set", "set"], b"include(`a.m4')dnl", cwd=folder)
    check("an empty line of an included text", (status, out, err.splitlines()[1:3]), (84, b"", [b" 2 | ", b"   | ^"]))
    check("the set is written", os.path.exists(os.path.join(folder, "set")), True)
    check("a reading with the set", run(["--get", "gain", "--set", "set"], b"include(`a.m4')dnl", cwd=folder)[0], 84)
    put(os.path.join(folder, "dir", "a.m4"), b"gain=3\n")
    check("a reading of an included text", run(["--get", "gain", "-I", "dir"], b"include(`a.m4')", cwd=folder), (0, b"3\n", b""))
    status, out, err = run(["--sheet", "--warn"], b"define (`n', 5)\n")
    check("warnings come first", (status, out, err.startswith(b"quenhovach: warning: standard input:1:1: "), b"\nquenhovach: standard input: refused: line 1 of the output" in err), (84, b"", True, True))


def clashes(folder):
    """Readings go to standard output, and nothing else does."""
    for options, said in [
        (["-o", "/dev/stdout"], b"the sheet (-o /dev/stdout) and the readings (standard output) are the same file"),
        (["--report", "/dev/stdout"], b"the readings (standard output) and the report (--report /dev/stdout) are the same file"),
    ]:
        check("readings and " + options[0], run(["--get", "a"] + options, b"a=1", cwd=folder), (2, b"", b"quenhovach: %s\nTry 'quenhovach --help'.\n" % said))
    check("the template is where the readings go", shell(folder, "printf a=1 >t; $q --get a t >>t; s=$?; cat t; exit $s")[:2], (2, b"a=1"))
    check("without --get a report may go to standard output", run(["-o", "s", "--report", "/dev/stdout"], b"a=1", cwd=folder)[:2], (0, b"0 0 4 3 3 0\n"))
