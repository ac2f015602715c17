"""What templates may include: the files below folders (-I), a set in a file (--set), the set that is written (--write-set), and what is said where one of these fails."""
import os
import re

from common import complained, contents, get, put, run, run_as_nobody, shell
from tally import check

LONGEST = 1048576


def set_of(items):
    """A set's bytes, as document 02 says them."""
    made = b""
    for name, text in items:
        made += b"\x81" + len(name).to_bytes(4, "little") + len(text).to_bytes(4, "little")
        joined = name + text
        while joined:
            chunk, joined = joined[:128], joined[128:]
            made += bytes([len(chunk)]) + chunk
    return made + b"\0"


def tree(folder, files):
    """Files with their texts, and the folders that they need."""
    for name, text in files.items():
        path = os.path.join(os.fsencode(folder), os.fsencode(name))
        os.makedirs(os.path.dirname(path), exist_ok=True)
        put(path, text)


# Two folders that share names, with what must be left out, and with names of any bytes.
FILES = {
    "common/guys.m4": b"define(`guys', `3')", "common/yard/wind.m4": b"11", "common/yard-2": b"12", "common/empty": b"", "common/a b": b"blank", b"common/\xff\n": b"bytes",
    "common/.hidden": b"no", "common/.git/config": b"no", "common/yard/.x": b"no",
    "other/guys.m4": b"define(`guys', `4')", "other/pier.m4": b"pier", "other/yard/wind.m4": b"14",
}
COMMON = [(b"a b", b"blank"), (b"empty", b""), (b"guys.m4", b"define(`guys', `3')"), (b"yard-2", b"12"), (b"yard/wind.m4", b"11"), (b"\xff\n", b"bytes")]
OTHER = [(b"guys.m4", b"define(`guys', `4')"), (b"pier.m4", b"pier"), (b"yard/wind.m4", b"14")]

# Options, text, and what comes of it: the sheet, or the number of the refusal.
INCLUDED = [
    ("-I common", b"include(`guys.m4')guys", b"3"),
    ("-Icommon", b"include(`guys.m4')guys", b"3"),
    ("-I common/", b"include(`yard/wind.m4')", b"11"),
    ("-I ./other/../common", b"include(`yard/wind.m4')", b"11"),
    ("-I common/yard", b"include(`wind.m4')", b"11"),
    ("-I .", b"include(`common/yard/wind.m4')", b"11"),
    ("-I common -I other", b"include(`guys.m4')guys include(`pier.m4')", b"3 pier"),
    ("-I other -I common", b"include(`guys.m4')guys include(`yard-2')", b"4 12"),
    ("-I common -I common", b"include(`guys.m4')guys", b"3"),
    ("-I common", b"[include(`empty')include(`a b') include(`\xff\n')]", b"[blank bytes]"),
    ("-I common", b"[sinclude(`none')sinclude(`yard-2')]", b"[12]"),
    ("-I common", b"include(guys.m4)guys", b"3"),
    ("-I common", b"include(`guys.m4' )", 15),
    ("-I common", b"include(`./guys.m4')", 15),
    ("-I common", b"include(`yard')", 15),
    ("-I common", b"include(`.hidden')", 15),
    ("-I common", b"include(`.git/config')", 15),
    ("-I common", b"include(`pier.m4')", 15),
    ("", b"include(`common/guys.m4')", 15),
    ("-I common", b"the include of include (`guys.m4')", b"the include of include (guys.m4)"),
]


def folders(folder):
    tree(folder, FILES)
    for options, text, given in INCLUDED:
        status, out, _ = run(options.split(), text, cwd=folder)
        expected = (64 + given, b"") if isinstance(given, int) else (0, given)
        check("included: %s, %r" % (options, text), (status, out), expected)
    here = lambda *names: os.path.join(folder, *names)
    os.symlink("../../other/pier.m4", here("common", "yard", "link.m4"))
    os.symlink("../other", here("common", "beside"))
    check("links are followed", run(["-I", "common"], b"include(`yard/link.m4') include(`beside/yard/wind.m4')", cwd=folder), (0, b"pier 14", b""))
    os.symlink("common", here("way"))
    check("a link as folder", run(["-I", "way"], b"include(`yard/wind.m4')", cwd=folder), (0, b"11", b""))
    put(here("t.m4"), b"include(`guys.m4')dnl\n")
    put(here("u.m4"), b"guys\n")
    check("beside several templates", run(["t.m4", "-I", "other", "u.m4"], cwd=folder), (0, b"4\n", b""))


def written(folder):
    tree(folder, FILES)
    here = lambda name: os.path.join(folder, name)
    for options, items in [
        ("-I common", COMMON),
        ("-I other -I common", OTHER + [item for item in COMMON if item[0] not in (b"guys.m4", b"yard/wind.m4")]),
        ("-I common/yard", [(b"wind.m4", b"11")]),
        ("-I none", []),
    ]:
        os.makedirs(here("none"), exist_ok=True)
        check("a set is written: " + options, run(options.split() + ["--write-set", "new.set"], b"x", cwd=folder), (0, b"x", b""))
        check("its bytes: " + options, get(here("new.set")), set_of(items))
        check("it serves as --set: " + options, run(["--set", "new.set"], b"sinclude(`yard/wind.m4')sinclude(`wind.m4')", cwd=folder)[:2],
              (0, dict(items).get(b"yard/wind.m4", b"") + dict(items).get(b"wind.m4", b"")))
    put(here("new.set"), b"old")
    check("a set of a refused template", (run(["-I", "other", "--write-set", "new.set"], b"`", cwd=folder)[:2], get(here("new.set"))), ((69, b""), set_of(OTHER)))
    for length in (0, 120, 121, 248, 249, 250):
        tree(folder, {"one/t.m4": b"x" * length})
        run(["-I", "one", "--write-set", "one.set"], b"", cwd=folder)
        check("chunks of %d bytes" % length, get(here("one.set")), set_of([(b"t.m4", b"x" * length)]))
    # What the run writes is no part of the set, so that a second run makes the same one.
    for number in (1, 2):
        options = ["-I", "other", "-o", "other/sheet", "--report", "other/numbers", "--write-set", "other/all.set"]
        check("written below -I, %d" % number, run(options, b"x", cwd=folder), (0, b"", b""))
        check("the set, %d" % number, get(here("other/all.set")), set_of(OTHER))
    for number in (1, 2):
        done = shell(folder, "$q -I other --write-set all.set -o s > other/out 2> other/err", b"x")
        leftover = [(b"all.set", set_of(OTHER)), (b"numbers", b"0 0 2 1 1 0\n"), (b"sheet", b"x")]
        check("standard streams below -I, %d" % number, (done[0], get(here("all.set"))), (0, set_of(sorted(OTHER + leftover))))


def failing(folder):
    """Each is told by its name, with exit status 63; nothing is written, and nothing is left behind."""
    tree(folder, {"common/a.m4": b"a", "common/b/c.m4": b"c", "sheet": b"old", "all.set": b"old", "file": b"x"})
    here = lambda *names: os.path.join(folder, *names)
    options = ["-o", "sheet", "--write-set", "all.set"]

    def fails(name, folders, words, runner=run):
        before = contents(folder)
        given = options + [word for one in folders for word in ("-I", one)]
        told = runner(folder, given, cwd=folder) if runner is run_as_nobody else run(given, b"x", cwd=folder)
        check(name, complained(told, words), True)
        check("then nothing is touched: " + name, contents(folder), before)

    fails("a folder that isn't there", ["none"], b"none: could not be read: ")
    fails("the second of two folders", ["common", "none/x"], b"none/x: could not be read: ")
    fails("a file as folder", ["file"], b"file: could not be read: ")
    for name, make, words in [
        ("a link to nothing", lambda path: os.symlink("nothing", path), b"common/b/bad: could not be read: "),
        ("a link to the folder that it is in", lambda path: os.symlink(".", path), b"common/b/bad: could not be read: it leads back to a folder that it is in"),
        ("a link to a folder around it", lambda path: os.symlink("..", path), b"common/b/bad: could not be read: it leads back to a folder that it is in"),
        ("a link to itself", lambda path: os.symlink("bad", path), b"common/b/bad: could not be read: "),
        ("a pipe", os.mkfifo, b"common/b/bad: could not be read: it is neither a file nor a folder"),
        ("a device", lambda path: os.symlink("/dev/null", path), b"common/b/bad: could not be read: it is neither a file nor a folder"),
    ]:
        make(here("common", "b", "bad"))
        fails(name, ["common"], words)
        os.remove(here("common", "b", "bad"))
    os.chmod(here("common", "a.m4"), 0)
    fails("an unreadable file", ["common"], b"common/a.m4: could not be read: ", run_as_nobody)
    os.chmod(here("common", "a.m4"), 0o644)
    os.chmod(here("common", "b"), 0)
    fails("an unreadable folder", ["common"], b"common/b: could not be read: ", run_as_nobody)
    os.chmod(here("common", "b"), 0o755)
    check("a set that can't be written", complained(run(["-I", "common", "--write-set", "/dev/full"], b"x", cwd=folder), b"/dev/full: could not be written"), True)
    check("a folder for it that isn't there", complained(run(["-I", "common", "--write-set", "none/all.set"], b"x", cwd=folder), b"none/all.set: could not be written"), True)
    os.chmod(here("all.set"), 0o444)
    check("a set that is write-protected", complained(run_as_nobody(folder, ["-I", "common", "--write-set", "all.set"], cwd=folder), b"all.set: could not be written"), True)
    check("then the old one stands, and no other file", (get(here("all.set")), sorted(os.listdir(folder))), (b"old", ["all.set", "common", "file", "sheet"]))


def too_long(folder):
    # The name has 1 byte. An item takes 9 bytes, one for each 128 of name and text, and these; the end takes one.
    longest = LONGEST - 9 - 8129 - 1 - 1
    tree(folder, {"one/a": b"%" * longest, "two/b": b"", "sheet": b"old"})
    here = lambda name: os.path.join(folder, name)
    check("a set of 1,048,576 bytes", run(["-I", "one", "--write-set", "all.set"], b"x", cwd=folder), (0, b"x", b""))
    check("it is that long", len(get(here("all.set"))), LONGEST)
    check("and is taken", run(["--set", "all.set"], b"x", cwd=folder), (0, b"x", b""))
    said = b"%s: it does not fit the set, which may have 1048576 bytes and has %d without it"
    check("one item more", complained(run(["-I", "one", "-I", "two", "-o", "sheet"], b"x", cwd=folder), said % (b"two/b", LONGEST)), True)
    put(here("one/a"), b"%" * (longest + 1))
    check("one byte more", complained(run(["-I", "one", "-o", "sheet"], b"x", cwd=folder), said % (b"one/a", 1)), True)
    with open(here("one/a"), "wb") as file:
        file.truncate(1 << 40)
    check("a file of a terabyte", complained(run(["-I", "one", "-o", "sheet"], b"x", cwd=folder), said % (b"one/a", 1)), True)
    check("then the old sheet stands", get(here("sheet")), b"old")
    os.mkdir(here("many"))
    for number in range(5000):
        put(here("many/" + "n" * 240 + str(number)), b"")
    check("very many files", complained(run(["-I", "many"], b"x", cwd=folder), b": too many files below -I for a set, which may have 1048576 bytes"), True)


# A set's bytes, and how it is told where it is bad.
A_XY = set_of([(b"a", b"xy")])
BAD = {
    "an empty file": (b"", "byte 0: the set ends without its end, a byte 0"),
    "one byte less": (A_XY[:-1], "byte 13: the set ends without its end, a byte 0"),
    "cut off": (A_XY[:-2], "byte 12: the set ends within an item"),
    "one byte more": (A_XY + b"\0", "byte 14: there is more behind the end of the set"),
    "another kind": (b"\x82" + A_XY, "byte 0: there is no kind 130 in a set"),
    "no set at all": (b"define(`n', 5)", "byte 0: a chunk where an item or the end is due"),
    "a short chunk": (A_XY[:9] + b"\1a\2xy\0", "byte 9: a chunk of 1 bytes where one of 3 is due"),
    "too long": (b"\0" * (LONGEST + 1), "byte 1048576: the set has more than 1048576 bytes"),
}


def sets(folder):
    here = lambda name: os.path.join(folder, name)
    put(here("a.set"), A_XY)
    check("a set in a file", run(["--set", "a.set"], b"[include(a)]", cwd=folder), (0, b"[xy]", b""))
    check("a set through a pipe", shell(folder, "cat a.set | $q --set /dev/stdin t.m4", b"")[0], 63)
    put(here("t.m4"), b"[include(a)]")
    check("a set through a descriptor", shell(folder, "cat a.set | $q --set /dev/stdin t.m4"), (0, b"[xy]", b""))
    check("the first of two counts", (put(here("b.set"), set_of([(b"a", b"1"), (b"a", b"2")])), run(["--set", "b.set"], b"include(a)", cwd=folder))[1], (0, b"1", b""))
    put(here("sheet"), b"old")
    for name, (text, fault) in BAD.items():
        put(here("bad.set"), text)
        status, out, err = run(["--set", "bad.set", "-o", "sheet", "--report", "numbers", "t.m4", "t.m4"], cwd=folder)
        said = " ".join(err.decode().split())
        check("a bad set: " + name, (status, out, get(here("sheet")), get(here("numbers"))), (78, b"", b"old", b"14 0 0 0 0 0\n"))
        check("its message: " + name, err.decode().splitlines()[0], "quenhovach: bad.set: refused: the set is bad, or longer than 1,048,576 bytes")
        check("its words: " + name, " What happened: %s (bytes of the set count from 0); nothing was expanded What to do: make the set again" % fault in said, True)
        check("its numbers: " + name, " In numbers: answer 14 (bad set), detail 0, after 0 steps, place 0 The sheet: " in said, True)
    check("a bad set and a text that is too long", run(["--set", "bad.set"], b"x" * 65537, cwd=folder)[0], 66)
    check("a bad set and no budget", run(["--set", "bad.set", "--budget", "0"], b"", cwd=folder)[0], 78)
    check("a set that isn't there", complained(run(["--set", "none.set"], b"x", cwd=folder), b"none.set: could not be read"), True)
    check("a folder as set", complained(run(["--set", "."], b"x", cwd=folder), b".: could not be read"), True)


SAME = "%s and %s are the same file"
# A line for the shell, and the complaint about two of the run's files.
CLASHES = [
    ("--set a.set -o a.set t.m4", SAME % ("the set (--set a.set)", "the sheet (-o a.set)")),
    ("--set a.set --report ./a.set t.m4", SAME % ("the set (--set a.set)", "the report (--report ./a.set)")),
    ("--set a.set t.m4 >> a.set", SAME % ("the set (--set a.set)", "the sheet (standard output)")),
    ("-I dir --write-set t.m4 t.m4", SAME % ("the template (t.m4)", "the new set (--write-set t.m4)")),
    ("-I dir --write-set new -o new t.m4", SAME % ("the sheet (-o new)", "the new set (--write-set new)")),
    ("-I dir --write-set a.set --report a.set t.m4", SAME % ("the report (--report a.set)", "the new set (--write-set a.set)")),
    ("-I dir --write-set a.set t.m4 < a.set", SAME % ("the new set (--write-set a.set)", "standard input")),
    ("--set /dev/stdin - < a.set", "the template (standard input) and the set (--set /dev/stdin) are one stream, which can be read once"),
]


def clashes(folder):
    tree(folder, {"a.set": A_XY, "t.m4": b"x", "dir/b": b"y"})
    for line, said in CLASHES:
        before = contents(folder)
        check("one file: " + line, shell(folder, "$q " + line), (2, b"", b"quenhovach: %s\nTry 'quenhovach --help'.\n" % said.encode()))
        check("then nothing is touched: " + line, contents(folder), before)
    check("a template that may be included, too", run(["-I", "dir", "dir/b"], cwd=folder), (0, b"y", b""))
    check("a set as template", run(["--set", "a.set", "a.set"], cwd=folder)[0], 0)


# Files below dir, the template, the number of the refusal, where it is told in included text, and what the set is said to have.
PLACES = {
    "in the text": ({"a.m4": b"one\ntwo eval(08) three\n"}, b"x include(`a.m4')\n", 8, "dir/a.m4:2:12", None),
    "in a macro that the text defined": ({"a.m4": b"define(`f', `incr(x)')dnl\n", "b.m4": b"\n\n  f\n"}, b"include(`a.m4')include(`b.m4')\n", 7, "dir/b.m4:3:3", None),
    "in a folder": ({"yard/a.m4": b"`open\n"}, b"sinclude(`yard/a.m4')\n", 5, "dir/yard/a.m4:1:1", None),
    "in a text that another includes": ({"a.m4": b"incr(x)\n", "b.m4": b"one\ninclude(`a.m4')\n"}, b"include(`b.m4')\n", 7, "dir/a.m4:1:7 and dir/b.m4:2:15", None),
    "behind it": ({"a.m4": b"one\n"}, b"include(`a.m4')\neval(08)\n", 8, None, None),
    "an include that is not there": ({"a.m4": b"one\n include(`c.m4')\n"}, b"include(`a.m4')\n", 15, "dir/a.m4:2:16", "1 text by -I dir"),
    "an include of the template": ({"guys.m4": b"", "wind.m4": b""}, b"include(`guy.m4')\n", 15, None, "2 texts by -I dir; like that name: `guys.m4`"),
    "a name in capitals, and in a folder": ({"a.m4": b"", "yard/a.m4": b"", "x": b""}, b"include(A.m4)\n", 15, None, "3 texts by -I dir; like that name: `a.m4`, `yard/a.m4`"),
    "a name that can't be read": ({"a.m4": b""}, b"define(`n', `b')include(n`.m4')\n", 15, None, "1 text by -I dir"),
}
HERE = "Where: the refused step begins here, or in text that a macro or an include before here gave "


def refused(folder):
    for name, (files, text, answer, place, has) in PLACES.items():
        where = os.path.join(folder, name.replace(" ", "_"))
        tree(os.path.join(where, "dir"), files)
        put(os.path.join(where, "t.m4"), text)
        status, out, err = run(["-I", "dir", "t.m4"], cwd=where)
        said = " ".join(err.decode().split())
        check("refused %s" % name, (status, out), (64 + answer, b""))
        told = re.search(r" In included text: the refused step ends at (.*), or in text that a macro there gave", said)
        check("told %s" % name, told and told[1], place)
        told = re.search(r" The set: (.*) In numbers: ", said)
        check("the set, %s" % name, told and told[1], has)
        check("read %s" % name, HERE in said, True)
        check("columns, %s" % name, max(map(len, err.decode().splitlines()[1:])) < 80, True)
    status, out, err = run([], b"include(`a.m4')")
    said = " ".join(err.decode().split())
    check("no set at all", (status, out, "include was given a name, `a.m4`, that no text in the set has What to do: give -I DIR" in said, "The set:" in said), (79, b"", True, False))
    put(os.path.join(folder, "a.set"), set_of([(b"a", b"incr(x)")]))
    _, _, err = run(["--set", "a.set"], b"include(a)", cwd=folder)
    check("in a text of a set", " In included text: the refused step ends at a:1:7, or in text that a macro there gave What " in " ".join(err.decode().split()), True)
    _, _, err = run(["--set", "a.set"], b"include(b)", cwd=folder)
    check("a name that a set has not", b"\nThe set: 1 text by --set a.set; like that name: `a`\n" in err, True)
    put(os.path.join(folder, "a.set"), set_of([(b"a", b"include(a)")]))
    status, _, err = run(["--set", "a.set"], b"include(a)", cwd=folder)
    check("a text that includes itself", (status, "or a text that includes itself, without end" in " ".join(err.decode().split())), (67, True))


def warned(folder):
    """What an included text defines is known where the template is looked at."""
    tree(folder, {"dir/a.m4": b"define(`format', `<$1>')define(`ring', `incr($1)')define(`h', `1.5')"})
    text = b"include(`a.m4')format(`x')ring (1)"
    gap = "there is a blank between `ring` and `(`, so it is called without arguments; without the blank it gets them"
    status, _, err = run(["--warn", "-I", "dir"], text, cwd=folder)
    check("--warn with what is included", (status, [line for line in err.decode().splitlines() if "warning" in line]), (71, ["quenhovach: warning: standard input:1:27: " + gap]))
    check("and a hint", "Hint: standard input:1:27: " + gap in re.sub(r"\n  ", " ", err.decode()), True)
    _, _, err = run(["-I", "dir"], b"include(`a.m4')eval(h / 2)", cwd=folder)
    check("a number that is defined there", "Hint: standard input:1:21: `h` is defined as 1.5 and is in an argument of `eval`" in re.sub(r"\n  ", " ", err.decode()), True)
