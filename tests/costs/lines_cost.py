#!/usr/bin/env python3
"""lines_cost.py: what the three functions of the index of lines cost, in instructions of each call (bench/counted.py).

The line of a place takes the same number, to the instruction, whatever the text, its length and the place, and at most MOST_LINE. Building an index takes at most
MOST_BYTE for each byte of the text, and a byte of a long text takes what a byte of a short one does, but for a fiftieth. The start of a line takes at most MOST_TOTAL
for each total of the index, MOST_BIT for each bit of one word, and MOST_START beside them; the worst of the lines asked for must come to half of that, or they would
show nothing. All answers must be those that counting gives.

Calls the archive crates/quenhovach/out/libquenhovach.a, or that of the folder QUENHOVACH_LIB_DIR, from lines_cost.c. Ends with 'N passed, M failed'; exit status 0
only if M is 0.
"""
import collections
import os
import subprocess
import sys

sys.dont_write_bytecode = True
HERE = os.path.dirname(os.path.abspath(__file__))
sys.path[:0] = [os.path.join(HERE, "..", "shared"), os.path.join(HERE, "..", "..", "bench")]
from counted import Counter  # noqa: E402
from places import ARCHIVE, ROOT  # noqa: E402
from tally import finish, judge  # noqa: E402

FOLDER = os.environ.get("QUENHOVACH_LIB_DIR")
LIBRARY = os.path.join(FOLDER, "libquenhovach.a") if FOLDER else ARCHIVE
DRIVER = os.path.join(HERE, "lines_cost.c")
LENGTHS = [0, 1, 63, 64, 65, 1000, 65535, 65536]
SIZES = [1024, 32768, 65536]
# a newline at every so many-th byte, dense and thin; 0: none
EVERY = [1, 2, 7, 64, 900, 0]
# the most instructions: of the line of a place, of building by the byte, and of the start of a line by the total, by the bit, and beside them
MOST_LINE = 100
MOST_BYTE = 10
MOST_TOTAL, MOST_BIT, MOST_START = 8, 4, 100
# how much the cost of a byte may differ between a short text and a long one
SPREAD = 1.02


def newlines(length, every):
    return length // every if every else 0


class Asked(collections.namedtuple("Asked", "function length every number")):
    """A question: of a text of this length, with a newline at every so many-th byte, this place or line."""

    def counted(self):
        """The answer and the line or start that counting gives."""
        if self.function == "build":
            return 0, 0
        if self.function == "line_of":
            return 0, newlines(self.number, self.every) + 1
        if 1 <= self.number <= newlines(self.length, self.every) + 1:
            return 0, (self.number - 1) * self.every
        return 32, 0


class Costs:
    """The driver, and what its calls take."""

    def __init__(self):
        self.counter = Counter()
        self.program = self.counter.at("driver")
        subprocess.run(["gcc", "-O2", "-Wall", "-Wextra", "-Werror", "-I", os.path.join(ROOT, "include"), "-o", self.program, DRIVER, LIBRARY], check=True)

    def of(self, function, questions):
        """The instructions of each call of a function; all calls must give what counting gives."""
        asked = [Asked(function, *question) for question in questions]
        text = "".join("%s %d %d %d\n" % question for question in asked)
        counts, output = self.counter.calls(self.program, text.encode(), "quenhovach_lines_" + function)
        answers = [tuple(map(int, line.split())) for line in output.decode().splitlines()]
        wrong = [(question, got) for question, got in zip(asked, answers) if got != question.counted()]
        if len(answers) != len(asked) or len(counts) != len(asked) or wrong:
            sys.exit("%d answers and %d counts of %d questions, wrong: %r" % (len(answers), len(counts), len(asked), wrong[:5]))
        return dict(zip(asked, counts))


def line_of(costs):
    """All places of all texts take the same."""
    places = lambda length: {0, min(1, length), length // 2, max(0, length - 1), length}
    counts = costs.of("line_of", [(length, every, place) for length in LENGTHS for every in EVERY for place in places(length)]).values()
    print("line_of: %d places, at least %d and at most %d instructions" % (len(counts), min(counts), max(counts)))
    judge("line_of", min(counts) == max(counts) <= MOST_LINE, "not one count, or more than %d" % MOST_LINE)


def build(costs):
    """In each kind of text a byte takes the same in short and long ones."""
    counts = costs.of("build", [(length, every, 0) for length in (0, *SIZES) for every in EVERY])
    for every in EVERY:
        empty, *others = (counts[Asked("build", length, every, 0)] for length in (0, *SIZES))
        each = [(count - empty) / length for count, length in zip(others, SIZES)]
        kind = "newline in %d" % every if every else "no newline"
        print("build, %-16s %.3f a byte at 1 KiB, %.3f at 32 KiB, %.3f at 64 KiB" % (kind + ":", *each))
        good = 0 < min(each) and max(each) <= min(each) * SPREAD and max(each) <= MOST_BYTE
        judge("build, " + kind, good, "a byte takes more than %d, or not the same in short and long texts" % MOST_BYTE)


def start_of(costs):
    """For each size the start of a line takes no more than it may, and the worst not much less."""
    last = lambda length, every: newlines(length, every) + 1
    lines = lambda *text: {0, 1, 2, 64, 65, 66, last(*text) // 2, last(*text), last(*text) + 1, 2**64 - 1}
    counts = costs.of("start_of", [(length, every, line) for length in SIZES for every in EVERY for line in lines(length, every)])
    for length in SIZES:
        here = [count for asked, count in counts.items() if asked.length == length]
        totals = length // 64 + 1
        limit = MOST_START + MOST_TOTAL * totals + MOST_BIT * 64
        print("start_of, %5d bytes: %d lines, at most %d instructions of %d for %d totals" % (length, len(here), max(here), limit, totals))
        judge("start_of, %d bytes" % length, limit / 2 <= max(here) <= limit, "the worst line takes more than it may, or less than half of that")


def main():
    costs = Costs()
    line_of(costs)
    build(costs)
    start_of(costs)
    finish()


main()
