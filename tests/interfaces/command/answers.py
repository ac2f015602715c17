"""Each answer of the command: exit status, sheet, error text, report, and what is said of a refusal and its place."""
import os
import re

from common import FIVE, get, put, run
from tally import check


# Text, options, exit status, output, error text, the six numbers.
ENDINGS = {
    "done": (FIVE, [], 0, b"5", b"", "0 0 8 16 1 0"),
    "done, the empty text": (b"", [], 0, b"", b"", "0 0 1 0 0 0"),
    "done, a predefined name that is a word": (b"the len of the boom", [], 0, b"the len of the boom", b"", "0 0 10 19 19 0"),
    "done, error text": (b"errprint(`a',`b')x", [], 0, b"x", b"a b", "0 0 7 18 1 3"),
    "done, a comment in the last line": (b"a#b", [], 0, b"a#b", b"", "0 0 3 3 3 0"),
    "done, any bytes": (b"\0\xff\n", [], 0, b"\0\xff\n", b"", "0 0 4 3 3 0"),
    "done, streams and wrap text": (b"m4wrap(`z')divert(1)b`'divert`'a", [], 0, b"azb", b"", "0 0 14 32 3 0"),
    "done, a copy of define": (b"copydef(`define',`rig')rig(`a',`b')a", ["--definitions", "5"], 0, b"b", b"", "0 0 13 36 1 0"),
    "exit, a copy of m4exit": (b"copydef(`m4exit',`bye')a bye b", [], 0, b"a ", b"", "1 0 8 28 2 0"),
    "exit": (b"a`'m4exit(7)b", [], 7, b"a", b"", "1 7 5 12 1 0"),
    "exit 0": (b"m4exit a", [], 0, b"", b"", "1 0 1 6 0 0"),
    "exit 255, error text": (b"errprint(`e')a`'m4exit(255)b", [], 255, b"a", b"e", "1 255 10 27 1 1"),
    "least room": (FIVE, "--pending 1 --calls 8 --definitions 2 --streams 0 --wrap 0 --errors 0 --output 1 --budget 8".split(), 0, b"5", b"", "0 0 8 16 1 0"),
    "most budget": (FIVE, ["--budget", "4294967295"], 0, b"5", b"", "0 0 8 16 1 0"),
}

# Text, options, the six numbers, and a word of the advice.
REFUSALS = {
    "lend": (b"x" * 65537, [], "2 0 0 0 0 0", b"shorter"),
    "spent": (b"a", ["--budget", "1"], "3 0 1 1 0 0", b"--budget"),
    "spent at once": (b"", ["--budget=0"], "3 0 0 0 0 0", b"--budget"),
    "room 1": (FIVE, ["--pending", "0"], "4 1 5 15 0 0", b"--pending"),
    "room 2": (FIVE, ["--calls", "7"], "4 2 3 11 0 0", b"--calls"),
    "room 3": (b"define(`a')", ["--definitions", "0"], "4 3 2 10 0 0", b"--definitions"),
    "room 4": (b"divert(1)a", ["--streams", "0"], "4 4 3 9 0 0", b"--streams"),
    "room 5": (b"m4wrap(`z')", ["--wrap", "0"], "4 5 2 10 0 0", b"--wrap"),
    "room 6": (b"errprint(`e')", ["--errors", "0"], "4 6 2 12 0 0", b"--errors"),
    "room 7": (b"a", ["--output", "0"], "4 7 0 0 0 0", b"--output"),
    "room 1, all lent": (b"eval(1,10,65537)", [], "4 1 11 15 0 0", b"calls itself"),
    "unclosed quote": (b"a`b", [], "5 1 1 1 0 0", b"end-quote mark"),
    "unclosed comment": (b"changecom(%,;)%a", [], "5 2 5 14 0 0", b"add that end mark"),
    "unclosed comment, a newline behind it": (b"changecom(%,;)%a\n", [], "5 2 5 14 0 0", b"changecom with the begin mark alone"),
    "unclosed call": (b"len(", [], "5 3 1 4 0 0", b"right parenthesis"),
    "unclosed call, a comment took the rest": (b"len(#)", [], "5 3 2 6 0 0", b"one in a quote or a comment closes nothing"),
    "name": (b"define(1,2)", [], "6 0 4 10 0 0", b"underscore"),
    "name, for a copy": (b"copydef(`len')", [], "6 0 2 13 0 0", b"the name to copy first and the new name second"),
    "number": (b"incr(2147483647)", [], "7 0 11 15 0 0", b"2147483647"),
    "expression": (b"eval(08)", [], "8 0 3 7 0 0", b"octal"),
    "divisor": (b"eval(1/0)", [], "9 0 4 8 0 0", b"divisor"),
    "mark": (b"changequote()", [], "10 0 1 12 0 0", b"1 to 5 bytes"),
    "no text": (b"defn(`len')", [], "11 0 2 10 0 0", b"to give the macro another name, take copydef"),
    "no text of a copy": (b"copydef(`len',`l')defn(`l')", [], "11 0 7 26 0 0", b"call the macro itself"),
    "gone": (b"len(undefine(`len'))", [], "12 0 4 19 0 0", b"undefine or popdef"),
    "deep": (b"len(" * 65, [], "13 0 64 256 0 0", b"nest fewer calls"),
    "no item": (b"include(x)", [], "15 0 2 9 0 0", b"-I DIR"),
    "no definition": (b"copydef(`x',`y')", ["--definitions", "0"], "16 0 4 15 0 0", b"write the name to copy first and the new name second"),
    "room 3, a copy": (b"copydef(`len',`l')", ["--definitions", "0"], "4 3 4 17 0 0", b"--definitions"),
    "a refusal drops output and error text": (b"good errprint(`e')`bad", [], "5 1 5 18 0 0", b"end-quote mark"),
}


def endings(folder):
    numbers = os.path.join(folder, "numbers")
    sheet = os.path.join(folder, "sheet")
    for name, (text, options, status, out, err, report) in ENDINGS.items():
        check(name, run(options, text), (status, out, err))
        put(sheet, b"the old sheet, longer than the new one")
        check(name + ", -o", run(options + ["-o", sheet, "--report", numbers], text), (status, b"", err))
        check(name + ", its sheet and report", (get(sheet), get(numbers)), (out, report.encode() + b"\n"))
    for name, (text, options, report, advice) in REFUSALS.items():
        status, out, err = run(options, text)
        check(name, (status, out), (64 + int(report.split()[0]), b""))
        check(name + ": it says what to do", b"What to do: " in err and advice in b" ".join(err.split()), True)
        put(sheet, b"old")
        before = os.stat(sheet)
        check(name + ", -o", run(options + ["-o", sheet, "--report", numbers], text)[:2], (status, b""))
        after = os.stat(sheet)
        check(name + ": the old sheet", (get(sheet), after.st_ino, after.st_mtime_ns), (b"old", before.st_ino, before.st_mtime_ns))
        check(name + ": the report", get(numbers), report.encode() + b"\n")
    os.remove(sheet)
    check("a refusal makes no sheet", (run(["-o", sheet], b"`")[0], os.path.exists(sheet)), (69, False))
    os.remove(numbers)
    check("no file is left behind", os.listdir(folder), [])


def caret(err):
    """The shown line, and the column of the caret in it."""
    match = re.search(r"^ (\d+ \| )(.*)\n ( +\| )( *)\^\n", err.decode(), re.M)
    return (match[2], len(match[4])) if match and len(match[1]) == len(match[3]) else None


def places(folder):
    template = os.path.join(folder, "mast.m4")
    put(template, b"one\ntwo\nguy `open\nlast\n")
    status, _, err = run([template])
    check("file, line and column", err.splitlines()[0], b"quenhovach: %s:3:5: refused: a quote is not closed" % template.encode())
    check("the line and the caret", caret(err), ("guy `open", 4))
    check("the whole place", (status, b"after 6 steps, place 12\n" in err), (69, True))
    os.remove(template)
    _, _, err = run([], b"define(`bad',`incr(x)')\n\nsee bad here\n")
    check("a refusal in a macro's text is placed behind the call", err.splitlines()[0].split(b": ")[1], b"standard input:3:8")
    check("which the message allows for", (b"text that a macro before here gave" in err, caret(err)), (True, ("see bad here", 7)))
    _, _, err = run([], b"a\nlen(\n")
    check("an unclosed call is placed at the end", err.splitlines()[0].split(b": ")[1], b"standard input:3:1")
    _, _, err = run([], b"x\n\t\xc3\xa9 `")
    check("columns are bytes, the caret goes by characters", (err.splitlines()[0].split(b": ")[1], caret(err)), (b"standard input:2:5", (" \u00e9 `", 3)))
    _, _, err = run([], b"\x1b[31m`")
    check("control bytes are not shown", b"\x1b" in err, False)
    _, _, err = run([], b"x" * 9000 + b"`" + b"y" * 9000)
    check("a long line is cut", (caret(err), max(map(len, err.splitlines())) < 80), (("..." + "x" * 47 + "`" + "y" * 16 + "...", 50), True))
    _, _, err = run([], b"x" * 65537)
    check("an overlong text has no place", caret(err), None)
