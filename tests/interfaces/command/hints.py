"""What in a template's text may be the cause of a refusal (Hint:), and the same for a text that expands (--warn): each kind, where it must stay silent, which comes first."""
import os
import re
import time

from common import CRATE, get, put, run, run_shell
from places import ROOT
from several import written
from tally import check

GAP = "there is a blank between `%s` and `(`, so it is plain text; without the blank it is a call"
NEWLINE = GAP.replace("blank", "newline")
CALLED = "there is a blank between `%s` and `(`, so it is called without arguments; without the blank it gets them"
PLAIN = "`%s` without `(` is plain text and is in an argument of `%s`, which takes whole numbers only"
BARE = "`%s` is predefined and called here without arguments; quote it if it is a plain word"
POINT = "%s has a point and is in an argument of `%s`, which takes whole numbers only"
NAMED = "`%s` is defined as %s and is in an argument of `%s`, which takes whole numbers only"
GIVEN = "%s has a point and is given to `%s`, whose text has `%s`, which takes whole numbers only"
RETURN = "the line ends with CR, which is no blank and stays in an argument"
RETURNS = "the line ends with CR%s; CR is no blank and stays in the sheet"
MARK = "the template begins with a byte-order mark, which is plain text"
ALIKE = "%s (U+%s) looks like a quote mark and is plain text"
FOREIGN = "`%s` is a macro of GNU m4 and not predefined here; it is plain text"
UNQUOTED = "`%s` is not in quote marks, so it is called first, and `copydef` is given what comes of that"
RUNS_ON = "%s the first line of the next template, too; this one does not end with a newline"
RUNS_ON_COMMENT, RUNS_ON_DNL = RUNS_ON % "the comment takes", RUNS_ON % "`dnl` drops"
CLOSER = "%s the rest of the line, so the `)` there closes no call"
CLOSER_COMMENT, CLOSER_DNL = CLOSER % "`#` makes a comment of", CLOSER % "`dnl` drops"

# The macros of GNU m4 that are in neither document.
OTHERS = """
__file__ __line__ __program__ builtin changeword debugfile debugmode dumpdef esyscmd format indir maketemp mkstemp patsubst regexp syscmd sysval traceoff
traceon
"""

# Texts that are refused: the texts of 1.m4, 2.m4 and so on, the answer's number, the hints.
REFUSED = {
    "a definition that is none, for a blank": (["a\n define (`n', 5)\neval(n + 1)\n"], 8, ["1.m4:2:2: " + GAP % "define"]),
    "for a newline": (["pushdef\n(`n', 5)\nincr(n)\n"], 7, ["1.m4:1:1: " + NEWLINE % "pushdef"]),
    "a definition that is not replaced": (["define(`n', 0)define (`n', 5)eval(10 / n)"], 9, ["1.m4:1:15: " + GAP % "define"]),
    "a mark that is not defined": (["define (`open', `[')changequote(open, `]')"], 10, ["1.m4:1:1: " + GAP % "define"]),
    "a tab and blanks": (["incr(eval \t (1 + 2))"], 7, ["1.m4:1:6: " + GAP % "eval"]),
    "a blank behind a macro of the text": (["define(`next', `incr($1)')dnl\ngain=next (4)\n"], 7, ["1.m4:2:6: " + CALLED % "next"]),
    "a blank in text that is read later": (["define(`twice', `eval(2 * len ($1))')\n\ntwice(abc)\n"], 8, ["1.m4:1:27: " + GAP % "len"]),
    "a blank in eval": (["eval(len (`abc') + 1)"], 8, ["1.m4:1:6: " + GAP % "len"]),
    "a word or a call, in eval": (["eval(len (boom) + 1)"], 8, ["1.m4:1:6: " + GAP % "len"]),
    "a blank in another argument": (["undivert(substr (`12', 0, 1))"], 7, ["1.m4:1:10: " + GAP % "substr"]),
    "a name without a call in eval": (["eval(10 / len)"], 8, ["1.m4:1:11: " + PLAIN % ("len", "eval")]),
    "in incr, in text that is read later": (["define(`f', `incr(`index')')f"], 7, ["1.m4:1:20: " + PLAIN % ("index", "incr")]),
    "a choice that is none": (["define(`f', `ifelse ($1, 0, , f(decr($1)))')f(3)"], 4, ["1.m4:1:14: " + GAP % "ifelse"]),
    "a count that stands still": (["define(`f', `ifelse($1, 3, `', `f (incr($1))')')f(1)"], 4, ["1.m4:1:33: " + CALLED % "f"]),
    "marks that are not set": (["changequote ([, ])define([n], 5)"], 6, ["1.m4:1:1: " + CALLED % "changequote"]),
    "comments that are off": (["now changecom here\n# it is `calm\n"], 5, ["1.m4:1:5: " + BARE % "changecom"]),
    "a call between two words of an argument": (["incr(we divert the 4)"], 7, ["1.m4:1:9: " + BARE % "divert"]),
    "a number with a point": (["x\nheight=eval(18.4 / 2)\n"], 8, ["1.m4:2:13: " + POINT % ("18.4", "eval")]),
    "in incr": (["incr(0.5)"], 7, ["1.m4:1:6: " + POINT % ("0.5", "incr")]),
    "in parentheses, in text that is read later": (["define(`h', `eval((1.5 + $1) * 2)')h(1)"], 8, ["1.m4:1:20: " + POINT % ("1.5", "eval")]),
    "behind a name": (["define(`height', `18.4')\neval(height / 2)\n"], 8, ["1.m4:2:6: " + NAMED % ("height", "18.4", "eval")]),
    "given to a macro": (["define(`ring', `eval($1 / 2)')\nring(33.5)\n"], 8, ["1.m4:2:6: " + GIVEN % ("33.5", "ring", "eval")]),
    "given to a macro, quoted": (["define(`ring', `eval($1 / 2)')\nring(`33.5')\n"], 8, ["1.m4:2:7: " + GIVEN % ("33.5", "ring", "eval")]),
    "given to a macro that counts": (["define(`next', `incr($1)')next(0, 1.5) next(1.5)"], 7, ["1.m4:1:45: " + GIVEN % ("1.5", "next", "incr")]),
    "in text that is thrown away": (["divert(-1)\nthe len\ndefine (`n', 5)\ndivert(0)eval(n)"], 8, ["1.m4:3:1: " + GAP % "define"]),
    "CR in an argument": (["guys=eval(3\r\n)\r\n"], 8, ["1.m4:1:12: " + RETURN]),
    "CR, the nearest": (["a\r\nincr(1\r\n)\r\n"], 7, ["1.m4:2:7: " + RETURN]),
    "CR in text that is read later": (["define(`f', `eval($1\r\n+ 1)')\r\nf(2)\r\n"], 8, ["1.m4:1:21: " + RETURN]),
    "CR, once": (["eval(1\r\n+\r\n2)"], 8, ["1.m4:2:2: " + RETURN]),
    "curly quotes": (["define(“n”, 5)"], 6, ["1.m4:1:12: " + ALIKE % ("”", "201D"), "1.m4:1:8: " + ALIKE % ("“", "201C")]),
    "an acute": (["incr(´4')"], 7, ["1.m4:1:6: " + ALIKE % ("´", "00B4")]),
    "a curly end mark": (["x define(`n’, 5)"], 5, ["1.m4:1:12: " + ALIKE % ("’", "2019")]),
    "curly quotes round a parenthesis": (["len(‘(’)"], 5, ["1.m4:1:9: " + ALIKE % ("’", "2019"), "1.m4:1:5: " + ALIKE % ("‘", "2018")]),
    "a macro of GNU m4": (["eval(format(`%d', 3) + 1)"], 8, ["1.m4:1:6: " + FOREIGN % "format"]),
    "an include that is none, for a blank": (["include (`common.m4')dnl\neval(height + 1)\n"], 8, ["1.m4:1:1: " + GAP % "include"]),
    "an include of a name that is not quoted": (["a include (yard/common.m4)\nincr(height)\n"], 7, ["1.m4:1:3: " + GAP % "include"]),
    "an sinclude that is none": (["sinclude\n(`common')incr(height)\n"], 7, ["1.m4:1:1: " + NEWLINE % "sinclude"]),
    "a copy that is none, for a blank": (["copydef (`define', `rig')rig(`n', 5)eval(n)\n"], 8, ["1.m4:1:1: " + GAP % "copydef"]),
    "a blank behind a copy of define": (["copydef(`define', `rig')\nrig (`n', 5)\neval(n + 1)\n"], 8, ["1.m4:2:1: " + GAP % "rig"]),
    "a number with a point in a copy of eval": (["copydef(`eval', `calc')calc(1.5)"], 8, ["1.m4:1:29: " + POINT % ("1.5", "calc")]),
    "a number that a copy of define defines": (["copydef(`define', `rig')rig(`h', `18.4')\neval(h / 2)\n"], 8, ["1.m4:2:6: " + NAMED % ("h", "18.4", "eval")]),
    "given to a copy of a macro": (["define(`ring', `eval($1 / 2)')copydef(`ring', `r')\nr(33.5)\n"], 8, ["1.m4:2:3: " + GIVEN % ("33.5", "r", "eval")]),
    "a copy without a call in eval": (["copydef(`len', `l')eval(10 / l)"], 8, ["1.m4:1:30: " + PLAIN % ("l", "eval")]),
    "a parenthesis that a copy of dnl drops": (["copydef(`dnl', `note')gain=len(`a'note)\n"], 5, ["1.m4:1:35: " + CLOSER % "`note` drops"]),
    "a name to copy that is not quoted": (["x copydef(divnum, `d')"], 16, ["1.m4:1:11: " + UNQUOTED % "divnum"]),
    "a text to copy that is not quoted": (["define(`h', `5')copydef(h, `g')"], 16, ["1.m4:1:25: " + UNQUOTED % "h"]),
    "not quoted, in text that is read later": (["define(`f', `copydef(divnum, `d')')\nf"], 16, ["1.m4:1:22: " + UNQUOTED % "divnum"]),
    "a definition that is none, before its copy": (["define (`n', 5)copydef(`n', `m')"], 16, ["1.m4:1:1: " + GAP % "define"]),
    "curly quotes round a name to copy": (["copydef(“len”, `l')"], 16, ["1.m4:1:15: " + ALIKE % ("”", "201D"), "1.m4:1:9: " + ALIKE % ("“", "201C")]),
    "a byte-order mark in an argument": (["incr(", "\ufeff1)"], 7, ["2.m4:1:1: " + MARK]),
    "a byte-order mark outside calls": (["a\n", "\ufeffeval(08)"], 8, []),
    "a parenthesis in a comment": (["gain=len(#)"], 5, ["1.m4:1:10: " + CLOSER_COMMENT]),
    "a parenthesis in a comment that a newline ends": (["gain=len(`a' # b)\nc\n"], 5, ["1.m4:1:14: " + CLOSER_COMMENT]),
    "a parenthesis of an inner call": (["define(`f', `$1')f(len(`a' # b)\n)"], 5, ["1.m4:1:28: " + CLOSER_COMMENT]),
    "a parenthesis that dnl drops": (["gain=len(`a'dnl)\n"], 5, ["1.m4:1:13: " + CLOSER_DNL]),
    "a parenthesis in the next template": (["len(`a' # b", ")\n"], 5, ["1.m4:1:9: " + CLOSER_COMMENT, "1.m4:1:9: " + RUNS_ON_COMMENT]),
    "a line that a comment takes": (["a\n# end", "define(`n', 5)dnl\neval(n)\n"], 8, ["1.m4:2:1: " + RUNS_ON_COMMENT]),
    "a line that dnl drops": (["dnl end", "define(`n', 5)dnl\nincr(n)\n"], 7, ["1.m4:1:1: " + RUNS_ON_DNL]),
    "a line that a comment takes, and a loop": (["# end", "a\ndefine(`n', `n n')n"], 4, []),
    "in the second file": (["a\nb\n", "c\nd define (`n', 5)\n", "e eval(n)\n"], 8, ["2.m4:2:3: " + GAP % "define"]),
    "in the first, refused in the second": (["a\ndefine(`h', `eval(1.5)')\n", "\nh\n"], 8, ["1.m4:2:19: " + POINT % ("1.5", "eval")]),
    "in the second's first line, behind a line that goes on": (["a ", "", "define (`n', 5)eval(n)"], 8, ["3.m4:1:1: " + GAP % "define"]),
    "three at most, the nearest first": (
        ["eval(1.5 + 2.5 + 3.5 + 4.5)"], 8,
        ["1.m4:1:24: " + POINT % ("4.5", "eval"), "1.m4:1:18: " + POINT % ("3.5", "eval"), "1.m4:1:12: " + POINT % ("2.5", "eval")],
    ),
    "a better one before a nearer one": (
        ["eval(1.5 + len (`a') + \r\n2)"], 8,
        ["1.m4:1:12: " + GAP % "len", "1.m4:1:6: " + POINT % ("1.5", "eval"), "1.m4:1:24: " + RETURN],
    ),
    "a long name": (["define(`%s', `incr($1)')%s (1)" % ("n" * 50, "n" * 50)], 7, ["1.m4:1:73: " + CALLED % ("n" * 40 + "...")]),
}

# Texts that are refused for another reason than what they have: the text, the answer's number.
UNFITTING = [
    ("incr(x)", 7),
    ("eval(08)", 8),
    ("# define (`n')\neval(08)", 8),
    ("dnl eval(1.5)\neval(08)", 8),
    ("the len of it eval(08)", 8),
    ("the index (see below) eval(08)", 8),
    ("len (`a') eval(08)", 8),
    ("divert (1) eval(08)", 8),
    ("we divert the cable eval(08)", 8),
    ("`define (`n', 5)' eval(08)", 8),
    ("eval(len(index) + 08)", 8),
    ("define(`f', `the len of it')eval(08)", 8),
    ("define(`f', `eval($1)')f(2) errprint(1.5) eval(08)", 8),
    ("define(`f', `len(`$1')eval(1)')f(1.5) eval(08)", 8),
    ("a\r\nb\r\neval(08)\r\n", 8),
    ("define(`f', `a\r\nb\r\n')dnl\r\neval(08)\r\n", 8),
    ("define(`h', `1.5')define(`h', `2')eval(h + 08)", 8),
    ("define(`len', `08')eval(len)", 8),
    ("eval(08) eval(1.5) define (`n')", 8),
    ("say “calm” eval(08)", 8),
    ("format(`a') eval(08)", 8),
    ("define(`format', `08')eval(format(1))", 8),
    ("the ‘boom’ `open", 5),
    ("`the boom’s end", 5),
    ("len(eval(15)", 5),
    ("len(`a' # (b)\n", 5),
    ("# )\nlen(`a'", 5),
    ("len(`a' # )\n)len(`b'", 5),
    ("len(`a' # )\n)eval(08)", 8),
    ("changecom(%, ;)a % b “c”\n", 5),
    ("\ufeffeval(08)", 8),
    ("changequote([, ])eval(1.5)", 8),
    ("undivert(0) the len", 7),
    ("define(`n', `n')n the len", 3),
    ("m4wrap(`incr(x)')the len", 7),
    ("copydef(`x', `y')", 16),
    ("copydef(len, `l')copydef(`divnum', `d')copydef(`x', `y')", 16),
    ("define(`a', `len')copydef(a, `l')copydef(`x', `y')", 16),
    ("copydef(`define', `rig')the rig (see below) eval(08)", 8),
]

# Texts that expand: the texts of the templates, the sheet, the warnings.
WARNED = {
    "nothing": (["gain=1\n"], "gain=1\n", []),
    "a word that is lost": (["we divert the cable\n"], "we  the cable\n", ["1.m4:1:4: " + BARE % "divert"]),
    "a word that ends the run": (["use m4exit to end\n"], "use ", ["1.m4:1:5: " + BARE % "m4exit"]),
    "a word that ends comments": (["we changecom here # len (`a')\n"], "we  here # len (a)\n", ["1.m4:1:4: " + BARE % "changecom"]),
    "a word that does nothing": (["to changequote and back\n"], "to  and back\n", ["1.m4:1:4: " + BARE % "changequote"]),
    "a word that loses a stream": (["divert(1)a divert(-1)do undivert it\ndivert(0)b\n"], "b\n", ["1.m4:1:25: " + BARE % "undivert"]),
    "a blank": (["len (`a')\n"], "len (a)\n", ["1.m4:1:1: " + GAP % "len"]),
    "a newline": (["define\n(`n', 5)n\n"], "define\n(n, 5)n\n", ["1.m4:1:1: " + NEWLINE % "define"]),
    "a blank that the words around don't explain": (
        ["a=len (boom)\nthe shift (`a', b)\nwe define (gain, 5)\nan index (\n$1)\nthe len (len(`a'))\n"], "a=len (boom)\nthe shift (a, b)\nwe define (gain, 5)\nan index (\n$1)\nthe len (1)\n",
        ["1.m4:1:3: " + GAP % "len", "1.m4:2:5: " + GAP % "shift", "1.m4:3:4: " + GAP % "define", "1.m4:4:4: " + GAP % "index", "1.m4:6:5: " + GAP % "len"],
    ),
    "a blank behind a name that is no word": (["the eval (see below)\n"], "the eval (see below)\n", ["1.m4:1:5: " + GAP % "eval"]),
    "a blank behind what may have no arguments": (["divert (1)a\n"], " (1)a\n", ["1.m4:1:1: " + CALLED % "divert"]),
    "a blank behind a text over a predefined name": (["pushdef(`len', `<$1>')len (`a')\n"], "<> (a)\n", ["1.m4:1:23: " + CALLED % "len"]),
    "a blank behind a copy": (["copydef(`define', `rig')rig (`n', 5)n\n"], "rig (n, 5)n\n", ["1.m4:1:25: " + GAP % "rig"]),
    "a blank behind a copy that is called": (["copydef(`divert', `to')to (1)a\n"], " (1)a\n", ["1.m4:1:24: " + CALLED % "to"]),
    "a copy of dnl that goes on in the next template": (["copydef(`dnl', `note')a note b", "c d\ne\n"], "a e\n", ["1.m4:1:25: " + RUNS_ON % "`note` drops"]),
    "what is not thrown away any more": (
        ["divert(-1)“a” divert(1)“b”\ndivert(-1)divert(0)c “d”\n"], "c “d”\n“b”\n",
        ["1.m4:1:28: " + ALIKE % ("“", "201C"), "1.m4:1:32: " + ALIKE % ("”", "201D"), "1.m4:2:22: " + ALIKE % ("“", "201C"), "1.m4:2:26: " + ALIKE % ("”", "201D")],
    ),
    "a blank in what is thrown away": (["divert(-1)the len undefine (`a') len(index)divert"], "", ["1.m4:1:19: " + GAP % "undefine"]),
    "behind a quoted number sign": (["define(`f', `guy#')len (`b')\n"], "len (b)\n", ["1.m4:1:20: " + GAP % "len"]),
    "behind the count of arguments": (["define(`f', `$# eval (b)')f\n"], "0 eval (b)\n", ["1.m4:1:17: " + GAP % "eval"]),
    "behind dnl at the end of a quoted line": (["define(`f', `a dnl\neval (1)')f\n"], "a eval (1)\n", ["1.m4:2:1: " + GAP % "eval"]),
    "a name in eval that is not read": (["ifelse(1, 2, `eval(len)')a"], "a", ["1.m4:1:20: " + PLAIN % ("len", "eval")]),
    "a number that is not read": (["ifelse(1, 2, `eval(1.5)')a"], "a", ["1.m4:1:20: " + POINT % ("1.5", "eval")]),
    "CR": (["a\r\n# b\r\nc\r\nd dnl e\r\nf\r\n"], "a\r\n# b\r\nc\r\nd f\r\n", ["1.m4:1:2: " + RETURNS % ", and so do 2 more"]),
    "CR, twice": (["a\r\nb\r\n"], "a\r\nb\r\n", ["1.m4:1:2: " + RETURNS % ", and so does 1 more"]),
    "CR at the end of templates": (["a\r", "b\n", "c\r\nd\re"], "a\rb\nc\r\nd\re", ["1.m4:1:2: " + RETURNS % "", "3.m4:1:2: " + RETURNS % ""]),
    "byte-order marks": (["\ufeffa\n", "\ufeffb\n"], "\ufeffa\n\ufeffb\n", ["1.m4:1:1: " + MARK, "2.m4:1:1: " + MARK]),
    "a byte-order mark behind other quote marks": (["changequote([, ])", "\ufeff[a]\n"], "\ufeffa\n", ["2.m4:1:1: " + MARK]),
    "a byte-order mark behind an empty template": (["", "\ufeffa\n"], "\ufeffa\n", ["2.m4:1:1: " + MARK]),
    "a byte-order mark behind a line that goes on": (["a\nb ", "\ufeffc\n"], "a\nb \ufeffc\n", ["2.m4:1:1: " + MARK]),
    "curly quotes": (["‘n’\n"], "‘n’\n", ["1.m4:1:1: " + ALIKE % ("‘", "2018"), "1.m4:1:5: " + ALIKE % ("’", "2019")]),
    "a comment that goes on in the next template": (["a # b", "c d\ne\n"], "a # bc d\ne\n", ["1.m4:1:3: " + RUNS_ON_COMMENT]),
    "dnl that goes on in the next template": (["a dnl b", "c d\ne\n"], "a e\n", ["1.m4:1:3: " + RUNS_ON_DNL]),
    "a comment that goes on behind an empty template": (["# b", "", "c"], "# bc", ["1.m4:1:1: " + RUNS_ON_COMMENT]),
    "a comment that goes on in what is thrown away": (["divert(-1)\n# b", "divert(0)dnl\nc\n"], "", ["1.m4:2:1: " + RUNS_ON_COMMENT]),
    "a comment that the next template's newline ends": (["a # b", "\nc\n"], "a # b\nc\n", []),
    "a comment that ends with its template": (["a # b\n", "c # d"], "a # b\nc # d", []),
    "a comment that goes on behind other marks": (["changecom(%)% b", "c\n"], "% bc\n", []),
    "a macro of GNU m4": (["a\n", "b syscmd(`ls')\n"], "a\nb syscmd(ls)\n", ["2.m4:1:3: " + FOREIGN % "syscmd"]),
}

# Texts that expand and have nothing to tell of, with the sheet if it is another text.
SILENT = [
    ("the len of the boom, index and shift, ifelse`' eval\n", "the len of the boom, index and shift, ifelse eval\n"),
    ("the index (see below), the len (840 cm), a shift (night) to\ndefine (or so, as you like)\n", None),
    ("we include (e.g. this) and include (that) include\n", None),
    ("an index of (`a')\nlen\n\n(the end)\n", "an index of (a)\nlen\n\n(the end)\n"),
    ("pushdef(`len', `x')len popdef(`len')len", "x len"),
    ("len(define) define(`f', `<$1>')f(index)", "6 <index>"),
    ("the divnum of it", "the 0 of it"),
    ("# the len of (a), define (b), “c”, eval(1.5)\n", None),
    ("a # the len of (a), define (b), “c”", None),
    ("a dnl the len of (a), define (b), “c”\r\n", "a "),
    ("define(`f', `<$1>')f(`a' # )\n)", "<a # )\n>"),
    ("`the len of define (b), “c”, format(d)'", "the len of define (b), “c”, format(d)"),
    ("define(`len', `x')len (a) len", "x (a) x"),
    ("pushdef(`index', `i')index", "i"),
    ("undefine(`shift')the shift of shift (a)", "the shift of shift (a)"),
    ("define(`f', `x')f (a)", "x (a)"),
    ("define(`format', `<$1>')format(`a')", "<a>"),
    ("define(`f', `# the len (a)\ndnl len (a)\nb')", ""),
    ("define(`rem', `dnl')\n`eval (b)'rem c\n", "\neval (b)"),
    ("copydef(`define', `rig')the rig (see below), a rig\n", "the rig (see below), a rig\n"),
    ("copydef(`define', `rig')rig(`len', `x')len (`a')", "x (a)"),
    ("copydef(`dnl', `note')note define (`n') “a”\r\nb", "b"),
    ("copydef(`len', `format')format(`a')", "1"),
    ("copydef(`divert', `to')we to the boom", "we  the boom"),
    ("define(`a', `len')copydef(a, `l')l(`boom')", "4"),
    ("divert(-1)divert\ndivert`'a divnum (b) undivert\n", "\na 0 (b) \n"),
    ("gain=0.75 version=1.5.2 len(1.5)\n", "gain=0.75 version=1.5.2 3\n"),
    ("define(`set', ``$1'=$2')set(`gain', 0.75)", "gain=0.75"),
    ("the boom’s end, l’été\n", None),
    ("define(`note', `the ‘big’ boom')note", "the ‘big’ boom"),
    ("the format of a (b), Len (c), lens (d)", None),
    ("changequote([, ])[the len (a) “b”]", "the len (a) “b”"),
    ("changecom # len`' ‘a’\n", " # len ‘a’\n"),
    ("a\rb\n", None),
    ("divert(-1)\r\nThe len of “it” is the index.\ndivert`'the boom", "the boom"),
    ("divert(-1)the len divert(0)the boom", "the boom"),
    ("divert\n(a)\n", "\n(a)\n"),
    ("a divert dnl b\nc", "a  c"),
    ("define(`f', `eval(1) $1')f(1.5)", "1 1.5"),
    ("define(`f', ``$0'')f (a)", "f (a)"),
    ("define(`f', `the len of it')f", "the len of it"),
    ("define(`open', `(')`len (a)'", "len (a)"),
    ("define(`h', `2')eval(h)define(`h', `1.5')h", "21.5"),
]


def hints(err):
    """The parts Hint: of a message, each on one line; they stand behind what to do and before the numbers."""
    text = re.sub(r"\n  ", " ", err.decode())
    parts = [line.split(": ", 1) for line in text.splitlines() if line.startswith(("What to do: ", "Hint: ", "In numbers: "))]
    check("the place of the hints", [name for name, _ in parts], ["What to do"] + ["Hint"] * (len(parts) - 2) + ["In numbers"])
    check("columns of the message", max(len(line) for line in err.decode().splitlines()[3:]) < 80, True)
    return [words for name, words in parts if name == "Hint"]


def refused(folder):
    for name, (texts, answer, said) in REFUSED.items():
        status, out, err = run(written(folder, [text.encode() for text in texts]), cwd=folder)
        check("hint: " + name, (status, out, hints(err)), (64 + answer, b"", said))
    for text, answer in UNFITTING:
        status, _, err = run(["--budget", "1000"], text.encode())
        check("no hint: %r" % text, (status, hints(err)), (64 + answer, []))
    _, _, err = run([], b"x" * 65530 + b"incr(len)")
    check("no hint in a text that is too long", b"Hint" in err, False)
    _, _, err = run([], b"incr(len)")
    check("standard input has its name", hints(err), ["standard input:1:6: " + PLAIN % ("len", "incr")])


def lines(said):
    return "".join("quenhovach: warning: %s\n" % line for line in said).encode()


def warned(folder):
    for name, (texts, sheet, said) in WARNED.items():
        names = written(folder, [text.encode() for text in texts])
        check("warned: " + name, run(["--warn"] + names, cwd=folder), (0, sheet.encode(), lines(said)))
        check("not without the option: " + name, run(names, cwd=folder), (0, sheet.encode(), b""))
    for text, sheet in SILENT:
        check("no warning: %r" % text, run(["--warn"], text.encode()), (0, (text if sheet is None else sheet).encode(), b""))
    for place, _, names in os.walk(os.path.join(ROOT, "examples")):
        for name in (name for name in names if name.endswith(".m4")):
            path = os.path.join(place, name)
            check("--warn changes nothing: " + name, run(["--warn", path]), run([path]))


def beside(folder):
    """--warn beside the other things that go to standard error, files and the exit status."""
    text, said = b"eval (1)errprint(`e')`'m4exit(7)", lines(["standard input:1:1: " + GAP % "eval"])
    check("before the error text, with the exit status", run(["--warn"], text), (7, b"eval (1)", said + b"e"))
    check("nothing of error text", run(["--warn"], b"errprint(`define (a)')"), (0, b"", b"define (a)"))
    sheet, numbers = os.path.join(folder, "sheet"), os.path.join(folder, "numbers")
    check("with -o and --report", run(["--warn", "-o", sheet, "--report", numbers], text), (7, b"", said + b"e"))
    check("the sheet and the report", (get(sheet), get(numbers)), (b"eval (1)", b"1 7 12 32 8 1\n"))
    status, out, err = run(["--warn"], b"eval (1) eval(1.5)")
    both = lines(["standard input:1:1: " + GAP % "eval", "standard input:1:15: " + POINT % ("1.5", "eval")])
    check("before a refusal's message", (status, out, err.startswith(both + b"quenhovach: standard input:1:18: refused: ")), (72, b"", True))
    check("whose hints fit it", hints(err[len(both):]), ["standard input:1:15: " + POINT % ("1.5", "eval")])
    put(sheet, b"old")
    for closed in ("2>&-", "2>/dev/full"):
        check("a warning that can't be written: " + closed, (run_shell(closed, b"eval (1)m4exit(7)", ["--warn", "-o", sheet]), get(sheet)), ((7, b"", b""), b"eval (1)"))
        check("error text that can't be written: " + closed, run_shell(closed, text, ["--warn"])[:2], (63, b""))
    check("nothing of a text that is too long", run(["--warn"], b"eval (" * 20000)[2].startswith(b"quenhovach: standard input: refused"), True)
    check("given twice", run(["--warn", "--warn"])[::2], (2, b"quenhovach: --warn: it is given twice\nTry 'quenhovach --help'.\n"))
    check("nothing behind it", run(["--warn=all"])[::2], (2, b"quenhovach: --warn takes nothing behind it\nTry 'quenhovach --help'.\n"))
    check("with one dash", run(["-warn"])[::2], (2, b"quenhovach: unknown option -warn; did you mean --warn?\nTry 'quenhovach --help'.\n"))


def linear(_):
    """Texts that would take long if something in them were looked at again and again."""
    for text in (b"copydef(", b"copydef(a,", b"len ", b"len (", b"len (a,", b"eval (", b"eval(len ", b"define(", b"(", b"`(", b"$1", b"1.", b"eval(1.5", b"a\r\n", b"divert ", b"\xe2\x80\x9c", b"eval(x "):
        whole = b"define(`f', `" + text * (65000 // len(text))
        began = time.monotonic()
        status, _, err = run(["--warn"], whole)
        check("soon done: %r" % text, (status, b"refused: a quote is not closed" in err, time.monotonic() - began < 2), (69, True, True))
    began = time.monotonic()
    _, _, err = run(["--warn"], b"eval (1)\n" * 7000)
    check("a warning for each, soon", (err.count(b"\n"), err.splitlines()[-1].split(b": ")[2], time.monotonic() - began < 2), (7000, b"standard input:7000:1", True))


def known(_):
    """The names that are known are those of the book of rules, and GNU m4's others."""
    source = get(os.path.join(CRATE, "src", "bin", "quenhovach", "suspects.rs")).decode()
    lists = {name: re.findall(r'"(\w+)"', names) for name, names in re.findall(r"const (\w+): .*?= \[(.*?)\];", source, re.S)}
    book = get(os.path.join(ROOT, "crates", "rules", "specs", "Table.antt")).decode()
    names = re.findall(r'bytes_of "(\w+)"', re.search(r"^predefined_names =\n(.*?)\[\]", book, re.M | re.S)[1])
    check("predefined names", sorted(lists["NEED_CALL"] + lists["TAKE_CALL"] + lists["BARE"]), sorted(names))
    for name in lists["NEED_CALL"]:
        check("plain text by itself: " + name, run(["--warn"], b"[%s]" % name.encode()), (0, b"[%s]" % name.encode(), b""))
    for name in lists["TAKE_CALL"] + lists["BARE"]:
        check("called by itself: " + name, name.encode() in run([], b"[%s]" % name.encode())[1], False)
    for name in sorted(set(lists["NEED_CALL"]) - set(lists["EVERYDAY"])):
        text = b"the %s (see below)" % name.encode()
        check("never a word: " + name, run(["--warn"], text), (0, text, lines(["standard input:1:5: " + GAP % name])))
    for name in lists["EVERYDAY"]:
        text = b"the %s (see below)" % name.encode()
        check("a word of everyday writing: " + name, run(["--warn"], text), (0, text, b""))
    check("five of them", sorted(lists["EVERYDAY"]), ["define", "include", "index", "len", "shift"])
    check("names of GNU m4", sorted(set(lists["FOREIGN"]) & set(names)), [])
    check("19 of them", len(lists["FOREIGN"]), len(OTHERS.split()))
    for name in OTHERS.split():
        check(name, run(["--warn"], name.encode() + b"(a)")[2], lines(["standard input:1:1: " + FOREIGN % name]))
