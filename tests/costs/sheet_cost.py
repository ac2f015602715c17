#!/usr/bin/env python3
"""sheet_cost.py: what reading a sheet and a question by name cost, in instructions of each call (bench/counted.py).

Reading takes at most MOST_READ, and for each line MOST_LINE, for each byte MOST_BYTE, for each two lines, whose names are compared, MOST_PAIR, and for each byte that a
comparison looks at MOST_COMPARED. So a text of 65,536 bytes has its worst in 256 long names that differ in the last byte. A byte of a long line takes what a byte of
a short one does, but for a fiftieth. A question takes at most MOST_FIND, MOST_ASKED for each line and MOST_COMPARED again; a line of a long sheet takes what a line of
a short one does: each is looked at once. The worst of the texts and of the questions must come to half of what it may take, or they would show nothing. All answers must
be those that are written here.

Calls the archive crates/quenhovach/out/libquenhovach.a, or that of the folder QUENHOVACH_LIB_DIR, from sheet_cost.c. Ends with 'N passed, M failed'; exit status 0
only if M is 0.
"""
import collections
import os
import subprocess
import sys

sys.dont_write_bytecode = True
HERE = os.path.dirname(os.path.abspath(__file__))
sys.path[:0] = [os.path.join(HERE, "..", "shared"), os.path.join(HERE, "..", "..", "bench")]
from counted import Counter  # noqa: E402
from places import ARCHIVE, ROOT  # noqa: E402
from tally import finish, judge  # noqa: E402

FOLDER = os.environ.get("QUENHOVACH_LIB_DIR")
LIBRARY = os.path.join(FOLDER, "libquenhovach.a") if FOLDER else ARCHIVE
DRIVER = os.path.join(HERE, "sheet_cost.c")
LONGEST = 65536
SIZES = [1024, 32768, LONGEST]
COUNTS = [64, 128, 256]
MOST_READ, MOST_LINE, MOST_BYTE, MOST_PAIR = 100000, 15000, 40, 30
MOST_FIND, MOST_ASKED, MOST_COMPARED = 100, 30, 8
# how much the cost of a byte or of a line may differ between a short text and a long one
SPREAD = 1.02


class Asked(collections.namedtuple("Asked", "text name answer line count found")):
    """A text and a name, and what has to come of them: the answer, the bad line, the count of lines and the line that is found."""


def letters(number, length):
    """Two letters for a number below 676, and so many x before them."""
    return b"x" * (length - 2) + bytes([97 + number // 26, 97 + number % 26])


def names(count, length):
    """So many names that differ in their last bytes alone."""
    return [letters(number, length) for number in range(count)]


def sheet(names, reading=b"1", asked=b"no_such_name", found=256):
    """A sheet of these names, asked for a name."""
    return Asked(b"".join(b"%s=%s\n" % (name, reading) for name in names), asked, 0, 0, len(names), found)


def one_line(front, byte, length, **answer):
    """A line that is as long as it may be, of one byte over and over."""
    good = dict(answer=0, line=0, count=1, found=0)
    return Asked(front + byte * (length - len(front)), b"a", **dict(good, **answer))


def long_name(length):
    """A line with a name as long as may be, which is asked for."""
    name = b"x" * (length - 2)
    return Asked(name + b"=1", name, 0, 0, 1, 0)


NO_SHEET = dict(answer=20, line=1, count=0, found=256)
LINES = {
    "a name": long_name,
    "a number": lambda length: one_line(b"a=", b"0", length),
    "a word": lambda length: one_line(b"a=", b"y", length),
    "digits that are no number": lambda length: one_line(b"a=", b"9", length, **NO_SHEET),
    "no setting": lambda length: one_line(b"", b"?", length, **NO_SHEET),
}
SHEETS = {
    "no line": sheet([]),
    "short names": sheet(names(256, 2)),
    "decimals of 15 digits": sheet(names(256, 2), b"-12345678.1234567"),
    "words": sheet(names(256, 2), b"w" * 200),
    "long names that differ in the first byte": sheet([name[::-1] for name in names(256, 250)]),
    "long names that differ in the last byte": sheet(names(256, 253)),
    "such names, the last one twice": Asked(*sheet(names(255, 253) + names(255, 253)[-1:])[:2], 21, 256, 0, 256),
    "such names, the last one asked for": sheet(names(256, 253), asked=letters(255, 253), found=255),
    "257 lines": Asked(*sheet(names(257, 250))[:2], 22, 257, 0, 256),
}


def names_of(asked):
    return [line.partition(b"=")[0] for line in asked.text.split(b"\n") if line][:256]


def compared(name, others):
    """How many bytes are looked at where a name is compared with others: those up to the first that differs, where the lengths are the same."""
    return sum(min(len(os.path.commonprefix([name, other])) + 1, len(name)) for other in others if len(other) == len(name))


def most_to_read(asked):
    names = names_of(asked)
    pairs = sum(compared(name, names[:at]) for at, name in enumerate(names))
    return MOST_READ + MOST_LINE * len(names) + MOST_BYTE * len(asked.text) + MOST_PAIR * len(names) * (len(names) - 1) // 2 + MOST_COMPARED * pairs


def most_to_find(asked):
    names = names_of(asked)[:asked.count]
    return MOST_FIND + MOST_ASKED * len(names) + MOST_COMPARED * compared(asked.name, names)


class Costs:
    """The driver, and what its calls take."""

    def __init__(self):
        self.counter = Counter()
        self.program = self.counter.at("driver")
        subprocess.run(["gcc", "-O2", "-Wall", "-Wextra", "-Werror", "-I", os.path.join(ROOT, "include"), "-o", self.program, DRIVER, LIBRARY], check=True)

    def of(self, function, asked):
        """The instructions of each call of a function; all answers must be those that are written here."""
        text = b"".join(b"%d %d\n%s%s" % (len(one.text), len(one.name), one.text, one.name) for one in asked)
        counts, output = self.counter.calls(self.program, text, "quenhovach_sheet_" + function)
        answers = [tuple(map(int, line.split())) for line in output.decode().splitlines()]
        wrong = [(one.text[:40], got) for one, got in zip(asked, answers) if got != one[2:]]
        if len(answers) != len(asked) or len(counts) != len(asked) or wrong:
            sys.exit("%d answers and %d counts of %d questions, wrong: %r" % (len(answers), len(counts), len(asked), wrong[:5]))
        return counts


def hold(function, named, counts, most):
    """No call takes more than it may, and the worst not much less."""
    parts = []
    for (name, asked), count in zip(named.items(), counts):
        limit = most(asked)
        parts.append(count / limit)
        print("%s, %-44s %9d instructions of %9d for %5d bytes" % (function, name + ":", count, limit, len(asked.text)))
        judge("%s, %s" % (function, name), count <= limit, "%d instructions, more than %d" % (count, limit))
    worst = max(zip(counts, parts))[1]
    judge(function + ", the worst", worst >= 0.5, "it takes less than half of what it may: %.2f" % worst)


def same_for_each(name, units, counts, unit):
    """From one size to the next, a unit takes the same."""
    each = [(counts[at + 1] - counts[at]) / (units[at + 1] - units[at]) for at in range(len(units) - 1)]
    print("%s: %s a %s" % (name, ", ".join("%.3f" % one for one in each), unit))
    judge(name, 0 < min(each) and max(each) <= min(each) * SPREAD, "a %s does not take the same in short and long texts" % unit)


def main():
    costs = Costs()
    lines = {"%s of %d bytes" % (name, length): make(length) for name, make in LINES.items() for length in SIZES}
    named = dict(SHEETS, **lines)
    for function, most in (("read", most_to_read), ("find", most_to_find)):
        hold(function, named, costs.of(function, list(named.values())), most)
    for name, make in LINES.items():
        same_for_each("read, a line that is " + name, SIZES, costs.of("read", [make(length) for length in SIZES]), "byte")
    asked = [sheet(names(count, 12)) for count in COUNTS]
    same_for_each("find", COUNTS, costs.of("find", asked), "line")
    finish()


main()
