"""Several templates: joined in order, told apart in what is said of a refusal, and each as safe as one alone."""
import os
import subprocess

from answers import caret
from common import FIVE, complained, contents, furnished, get, put, run, run_as_nobody, shell
from places import COMMAND
from tally import check

# The texts of the templates, - for standard input with its text, the sheet.
JOINED = [
    ([b"a\n", b"b\n"], None, b"a\nb\n"),
    ([b"define(`n',`5')dnl\n", b"n\n", b"define(`n',`6')n\n"], None, b"5\n6\n"),
    ([b"le", b"n(`abc')"], None, b"3"),
    ([b"x`a", b"b'y"], None, b"xaby"),
    ([b"x dnl ", b"gone\ny"], None, b"x y"),
    ([b"len(`a'", b"", b"`b')"], None, b"2"),
    ([b"", b""], None, b""),
    (["-", b"b"], b"a", b"ab"),
    ([b"a", "-", b"c"], b"b", b"abc"),
    ([b"a", "-"], b"", b"a"),
    ([b"m4wrap(`z')", b"divert(1)b`'divert`'a"], None, b"azb"),
]


def written(folder, texts):
    """Templates with these texts, called 1.m4, 2.m4 and so on; - stays."""
    for number, text in enumerate(texts, 1):
        if text != "-":
            put(os.path.join(folder, "%d.m4" % number), text)
    return ["-" if text == "-" else "%d.m4" % number for number, text in enumerate(texts, 1)]


def joined(folder):
    for texts, given, sheet in JOINED:
        names = written(folder, texts)
        check("joined: %r" % texts, run(names, given or b"", cwd=folder), (0, sheet, b""))
    names = written(folder, [b"b`'m4exit(3)", b"`"])
    check("m4exit ends all", run(names, cwd=folder), (3, b"b", b""))
    put(os.path.join(folder, "t.m4"), b"define(`n',ifdef(`n',`incr(n)',`1'))n ")
    check("one template twice, and a third time", run(["t.m4", "./t.m4", "t.m4"], cwd=folder), (0, b"1 2 3 ", b""))
    check("and as standard input", shell(folder, "$q t.m4 - < t.m4"), (0, b"1 2 ", b""))
    check("options between templates", run(["t.m4", "-o", "sheet", "--", "t.m4"], cwd=folder), (0, b"", b""))
    check("their sheet", get(os.path.join(folder, "sheet")), b"1 2 ")
    os.rename(os.path.join(folder, "t.m4"), os.path.join(folder, "-t"))
    check("names behind --", run(["--", "-t", "-t"], cwd=folder), (0, b"1 2 ", b""))
    check("two pipes", shell(folder, "mkfifo one two; printf le > one & printf 'n(abc)' > two & $q one two"), (0, b"3", b""))
    check("two descriptors", shell(folder, "$q /dev/fd/3 /dev/fd/4 3< 1.m4 4< sheet"), (3, b"b", b""))


# The texts of the templates, options, exit status, where the place is told, the shown line with the caret's column in it, and how it is to be read.
HERE = "the refused step begins here, or in text that a macro before here gave"
PLACES = {
    "in the first": ([b"one\n two `\n", b"three\n"], [], 69, "1.m4:2:6", (" two `", 5), HERE),
    "in the second": ([b"one\ntwo\n", b"three\nfour `\n", b"five\n"], [], 69, "2.m4:2:6", ("four `", 5), HERE),
    "in the second's first line, behind a line that goes on": ([b"one\nmast ", b"two `\n"], [], 69, "2.m4:1:5", ("two `", 4), HERE),
    "a quote over a border": ([b"one\nx `two\n", b"three\n"], [], 69, "1.m4:2:3", ("x `two", 2), HERE),
    "at a border, in the next": ([b"one\n", b"`two\n"], [], 69, "2.m4:1:1", ("`two", 0), HERE.replace("before here", "at the end of 1.m4")),
    "at a border, in a macro's text": ([b"define(`bad',`incr(x)')bad", b" two\n"], [], 71, "2.m4:1:1", (" two", 0), HERE.replace("before here", "at the end of 1.m4")),
    "at a border with an empty template": ([b"one\n", b"", b"`two\n", b"four\n"], [], 69, "3.m4:1:1", ("`two", 0), HERE.replace("before here", "at the end of 1.m4")),
    "at the first byte of the first": ([b"`one\n", b"two\n"], [], 69, "1.m4:1:1", ("`one", 0), HERE),
    "at the first byte behind an empty one": ([b"", b"`one\n"], [], 69, "2.m4:1:1", ("`one", 0), HERE),
    "behind the last byte": ([b"len(\n", b"one\ntwo"], [], 69, "2.m4:2:4", ("two", 3), "the text ends here; the open call begins somewhere before, in this template or one before it"),
    "behind the last byte, which is the first template's": ([b"one\nlen(", b""], [], 69, "1.m4:2:5", ("len(", 4), "the text ends here; the open call begins somewhere before"),
    "behind the last byte, in wrap text": ([b"m4wrap(`incr(x)')", b"one\n"], [], 71, "2.m4:2:1", ("", 0), HERE),
    "behind no byte": ([b"", b""], ["--budget", "0"], 67, "2.m4:1:1", ("", 0), HERE),
    "standard input": ([b"one\n", "-"], [], 69, "standard input:2:3", ("b `", 2), HERE),
}


def places(folder):
    for name, (texts, options, status, place, shown, reading) in PLACES.items():
        got, out, err = run(options + written(folder, texts), b"a\nb `", cwd=folder)
        first, said = err.decode().splitlines()[0], " ".join(err.decode().split())
        check("told %s" % name, (got, out, first.split(": ")[1], caret(err)), (status, b"", place, shown))
        check("read %s" % name, "Where: %s What happened: " % reading in said, True)
    names = written(folder, [b"x y ", b"x y ", b"\n `"])
    _, _, err = run(names + ["--report", "numbers"], cwd=folder)
    check("the place over all, and in its template", "after 10 steps, place 10 in the 3 templates joined, 2 in template 3 The sheet: " in " ".join(err.decode().split()), True)
    check("the report counts over all", get(os.path.join(folder, "numbers")), b"5 1 10 10 0 0\n")
    _, _, err = run(["1.m4", "1.m4", "--budget", "5"], cwd=folder)
    check("which of two that are one file", "1.m4:1:2: refused" in err.decode() and "place 5 in the 2 templates joined, 1 in template 2" in " ".join(err.decode().split()), True)


def too_long(folder):
    half = b"x" * 32768
    check("65,536 bytes in all", run(written(folder, [half, half, b""]), cwd=folder), (0, half * 2, b""))
    for name, texts, before, passing in [
        ("the last", [half, half, b"y"], 65536, "3.m4"),
        ("one before the last", [half, half + b"y", b"", b"z"], 32768, "2.m4"),
        ("the first alone", [half * 2 + b"y", b""], 0, "1.m4"),
        ("standard input", [half, "-", b"z"], 32768, "standard input"),
    ]:
        names = written(folder, texts)
        status, out, err = run(names + ["--report", "numbers"], half * 3, cwd=folder)
        check("too long: " + name, (status, out, err.splitlines()[0]), (66, b"", b"quenhovach: %s: refused: the text or a buffer is longer than 65,536 bytes" % passing.encode()))
        said = "the templates have more than 65536 bytes together; %s passes the limit, with %d bytes before it; nothing was expanded" % (passing, before)
        check("too long, in words: " + name, said in " ".join(err.decode().split()), True)
        check("too long, the report: " + name, get(os.path.join(folder, "numbers")), b"2 0 0 0 0 0\n")
    check("a file without end behind another", run(["1.m4", "/dev/zero"], cwd=folder)[:2], (66, b""))
    _, _, err = run([], half * 3)
    check("one alone is told as before", b"What happened: the template has more than 65536 bytes; nothing was expanded\n" in err, True)


def unreadable(folder):
    names = written(folder, [b"a", b"b"])
    here = lambda name: os.path.join(folder, name)
    os.mkdir(here("dir"))
    for line, name in [("1.m4 none", b"none"), ("none 1.m4", b"none"), ("1.m4 dir 2.m4", b"dir"), ("1.m4 - <&-", b"standard input"), ("1.m4 - < dir", b"standard input")]:
        put(here("sheet"), b"old")
        put(here("numbers"), b"old")
        inode = os.stat(here("sheet")).st_ino
        check("unreadable: " + line, complained(shell(folder, "$q -o sheet --report numbers " + line), name + b": could not be read"), True)
        check("then nothing is written: " + line, (get(here("sheet")), os.stat(here("sheet")).st_ino, get(here("numbers"))), (b"old", inode, b""))
    os.chmod(here("2.m4"), 0)
    check("unreadable for others", complained(run_as_nobody(folder, names, cwd=folder), b"2.m4: could not be read"), True)


def read_first(folder):
    """While a template is still to come, nothing stands beside the old sheet."""
    os.mkfifo(os.path.join(folder, "pipe"))
    put(os.path.join(folder, "1.m4"), b"a")
    put(os.path.join(folder, "sheet"), b"old")
    process = subprocess.Popen([COMMAND, "-o", "sheet", "--report", "numbers", "1.m4", "pipe", "1.m4"], cwd=folder, stdout=subprocess.PIPE, stderr=subprocess.PIPE)
    with open(os.path.join(folder, "pipe"), "wb") as pipe:
        before = sorted(os.listdir(folder)), get(os.path.join(folder, "sheet"))
        pipe.write(b"b")
    check("before all are read", before, (["1.m4", "pipe", "sheet"], b"old"))
    check("when they are", (process.communicate(timeout=60), process.returncode), ((b"", b""), 0))
    check("the sheet and the report of all", (get(os.path.join(folder, "sheet")), get(os.path.join(folder, "numbers"))), (b"aba", b"0 0 2 3 3 0\n"))


SAME = "%s and %s are the same file"
ONCE = "%s and %s are one stream, which can be read once"
# A line for the shell, and the complaint about two of the run's files.
CLASHES = [
    ("-o t.m4 t.m4 old", SAME, "the template (t.m4)", "the sheet (-o t.m4)"),
    ("-o t.m4 old t.m4", SAME, "the template (t.m4)", "the sheet (-o t.m4)"),
    ("-o hard old - < t.m4", SAME, "the template (standard input)", "the sheet (-o hard)"),
    ("--report soft old t.m4 old", SAME, "the template (t.m4)", "the report (--report soft)"),
    ("old soft >> t.m4", SAME, "the template (soft)", "the sheet (standard output)"),
    ("t.m4 - - < old", "-: it is given twice; standard input can be read once"),
    ("- /dev/stdin < t.m4", ONCE, "the template (standard input)", "the template (/dev/stdin)"),
    ("/dev/fd/0 old /dev/stdin < t.m4", ONCE, "the template (/dev/fd/0)", "the template (/dev/stdin)"),
    ("/dev/fd/3 /dev/fd/3 3< t.m4", ONCE, "the template (/dev/fd/3)", "the template (/dev/fd/3)"),
    ("/dev/fd/3 old /dev/fd/4 3< t.m4 4<&3", ONCE, "the template (/dev/fd/3)", "the template (/dev/fd/4)"),
    ("/dev/fd/3 /dev/fd/4 3< t.m4 4< hard", ONCE, "the template (/dev/fd/3)", "the template (/dev/fd/4)"),
    ("- /dev/fd/3 3<&0", ONCE, "the template (standard input)", "the template (/dev/fd/3)"),
]
SPOILT = ["old t.m4 2>> t.m4", "t.m4 old 2>> hard", "old - < t.m4 2>> soft"]


def clashes(folder):
    cases = [(line, words[0] % tuple(words[1:])) for line, *words in CLASHES] + [(line, None) for line in SPOILT]
    for line, said in cases:
        place = furnished(folder)
        before = contents(place)
        expected = b"" if said is None else b"quenhovach: %s\nTry 'quenhovach --help'.\n" % said.encode()
        check("clash: " + line, shell(place, "$q " + line, FIVE), (2, b"", expected))
        check("then nothing is touched: " + line, contents(place), before)
