#!/usr/bin/env python3
"""step_costs.py [NAME..]: what one step of each macro costs at its worst, in instructions (bench/counted.py).

For each of the texts of worst_texts.py two runs are counted that differ by the step in question, with about 16 KB and with about 64 KB of argument,
definitions, streams or text before it. Where the step costs a fixed number of passes over that, the second is four times the first; it may be at most
five times, and less than twice would say that the text is not the macro's worst. A step that passes over nothing must cost the same. Each run must give what is
written there. Names are beginnings of those of the texts. Last comes what one use of a name costs among 200 and among 2,000 definitions, as templates have them:
by buckets, the second is at most twice the first. Ends with 'N passed, M failed'; exit status 0 only if M is 0.
"""
import os
import sys

sys.dont_write_bytecode = True
HERE = os.path.dirname(os.path.abspath(__file__))
sys.path[:0] = [os.path.join(HERE, "..", "shared"), os.path.join(HERE, "..", "..", "bench")]
from counted import Counter  # noqa: E402
from places import program  # noqa: E402
from tally import fail, finish, judge  # noqa: E402
from worst_texts import WORST, names_used, without_text  # noqa: E402

PROGRAM = program("expand")
SMALL, LARGE = 15000, 60000
LEAST, MOST = 2.0, 5.0
SAME = 1.01
FEW, MANY, USES = 200, 2000, 500
AMONG_MANY = "a use of a name among many"
MOST_AMONG_MANY = 2.0


def instructions(counter, run):
    """The instructions of a run, and whether it gave what it should."""
    counted = counter.run(PROGRAM, run.text)
    good = (counted.output, counted.errors) == (run.output, run.errors)
    if not good:
        print("expected %.60r and %r, got %.60r and %r" % (run.output, run.errors[-60:], counted.output, counted.errors[-60:]))
    return counted.instructions, good


def cost(counter, worst):
    """The instructions of the step, and whether both runs gave what they should."""
    (without, first), (whole, second) = (instructions(counter, run) for run in (worst.without, worst.whole))
    return whole - without, first and second


def fault_of(small, large, grows):
    """What is wrong with the cost of a step at the two sizes, or None."""
    if small <= 0:
        return "the step was not counted"
    ratio = large / small
    if not grows:
        return None if ratio <= SAME else "the cost grows, and there is nothing to pass over"
    if ratio > MOST:
        return "the cost grows faster than what it passes over"
    return "this is not the worst: the cost does not grow with what it passes over" if ratio < LEAST else None


def judge_uses(counter):
    """What a use costs among few and among many definitions."""
    (few, first), (many, second) = (cost(counter, names_used(count, USES)) for count in (FEW, MANY))
    print("%s: %d instructions among %d, %d among %d, ratio %.2f" % (AMONG_MANY, few / USES, FEW, many / USES, MANY, many / few))
    good = first and second and 0 < many <= MOST_AMONG_MANY * few
    judge(AMONG_MANY, good, "it costs more than %.1f times as much as among few, or gives another answer" % MOST_AMONG_MANY)


def main():
    chosen = {name: make for name, make in WORST.items() if not sys.argv[1:] or any(name.startswith(word) for word in sys.argv[1:])}
    counter = Counter()
    for name in without_text():
        fail("%s: there is no text for it" % name)
    print("%-25s %12s %12s %7s" % ("step of", "16 KB", "64 KB", "ratio"))
    for name, make in chosen.items():
        (small, first), (large, second) = (cost(counter, make(n)) for n in (SMALL, LARGE))
        fault = fault_of(small, large, make(SMALL).grows) if first and second else "another answer than it should be"
        print("%-25s %12d %12d %7.2f" % (name, small, large, large / small if small else 0), flush=True)
        judge(name, fault is None, fault)
    if not sys.argv[1:] or any(AMONG_MANY.startswith(word) for word in sys.argv[1:]):
        judge_uses(counter)
    finish()


main()
