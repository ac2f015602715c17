"""The caret under a line with characters of no column or of two, and the table that it goes by beside Python's own data of Unicode."""
import os
import re
import unicodedata

from answers import caret
from common import CRATE, get, run
from tally import check

# What stands before an open quote, how it is shown if otherwise, and the column under the quote.
LINES = [
    ("mast ", None, 5),
    ("\u00e9\u00f8", None, 2),
    ("e\u0301o\u0308\u0304", None, 2),
    ("\u9ad8\u3055 ", None, 5),
    ("\uff21\uff71", None, 3),
    ("\ud55c\uad6d\uc5b4 ", None, 7),
    ("\u1112\u1161\u11ab ", None, 3),
    ("\u0e17\u0e35\u0e48", None, 1),
    ("\u0915\u093f", None, 2),
    ("\u05e9\u05c1", None, 1),
    ("\U0001f680 ", None, 3),
    ("\U00020000", None, 2),
    ("\u2601\ufe0f ", "\u2601 ", 2),
    ("\U0001f469\u200d\U0001f680", "\U0001f469?\U0001f680", 5),
    ("a\u202eb\u2028\u00ad", "a?b??", 5),
    ("\u9ad8" * 25, None, 50),
    ("\u9ad8" * 26, "..." + "\u9ad8" * 23, 49),
    ("x\u0301" * 60, "..." + "x\u0301" * 47, 50),
]


def lines(_):
    for before, shown, column in LINES:
        _, _, err = run([], before.encode() + b"`")
        line = before if shown is None else shown
        check("the caret behind %a" % before, caret(err), (line + "`", column))
        place = err.splitlines()[0].split(b": ")[1]
        check("its column in bytes", place, b"standard input:1:%d" % (len(before.encode()) + 1))
    _, _, err = run([], b"`" + ("\u9ad8" * 11).encode())
    check("behind the caret too", caret(err), ("`" + "\u9ad8" * 8 + "...", 0))


def table(_):
    """Of every letter and mark that Unicode 3.2 had: later versions have moved symbols only."""
    source = get(os.path.join(CRATE, "src", "bin", "quenhovach", "width.rs")).decode()
    lists = {name: [int(n, 16) for n in re.findall("0x[0-9a-f]+", numbers)] for name, numbers in re.findall(r"const (\w+): \[u32; \d+\] = \[(.*?)\];", source, re.S)}
    inside = {name: set(c for begin, end in zip(borders[::2], borders[1::2]) for c in range(begin, end)) for name, borders in lists.items()}
    check("three lists", sorted(inside), ["FORMAT", "NONE", "TWO"])
    check("no character is in two", inside["NONE"] & inside["TWO"] | inside["FORMAT"] & (inside["NONE"] | inside["TWO"]), set())
    old = [c for c in range(0x110000) if unicodedata.ucd_3_2_0.category(chr(c))[0] in "LM"]
    marks = set(c for c in old if unicodedata.category(chr(c)) in ("Mn", "Me") or 0x1160 <= c <= 0x11FF)
    wide = set(c for c in old if unicodedata.east_asian_width(chr(c)) in "WF") - marks
    check("enough to judge by", (len(old) > 90000, len(marks) > 500, len(wide) > 70000), (True, True, True))
    check("marks take no column", (sorted(marks - inside["NONE"])[:9], sorted((set(old) - marks) & inside["NONE"])[:9]), ([], []))
    check("wide ones take two", (sorted(wide - inside["TWO"])[:9], sorted((set(old) - wide) & inside["TWO"])[:9]), ([], []))
    formats = set(c for c in range(0x110000) if unicodedata.ucd_3_2_0.category(chr(c)) in ("Cf", "Zl", "Zp") and unicodedata.category(chr(c)) in ("Cf", "Zl", "Zp"))
    check("what formats is known", (len(formats) > 30, sorted(formats - inside["FORMAT"])[:9]), (True, []))
