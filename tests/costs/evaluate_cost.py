#!/usr/bin/env python3
"""evaluate_cost.py: an expression of eight times the length costs eval at most nine times the instructions.

Counts the instructions of the program crates/evaluate/out/evaluate (it reads an expression and writes what it comes to; see bench/counted.py),
less those for the expression `1`, at 8 KB and at 64 KB, for each kind of long expression. Each must come to what it says here. Ends with
'N passed, M failed'; exit status 0 only if M is 0.
"""
import os
import sys

sys.dont_write_bytecode = True
HERE = os.path.dirname(os.path.abspath(__file__))
sys.path[:0] = [os.path.join(HERE, "..", "shared"), os.path.join(HERE, "..", "..", "bench")]
from counted import Counter  # noqa: E402
from places import program  # noqa: E402
from tally import finish, judge  # noqa: E402

PROGRAM = program("evaluate")
MOST = 9.0


def chain(front, operand, operator, back, size):
    count = (size - len(front) - len(back) - len(operand)) // len(operand + operator)
    return front + (operand + operator) * count + operand + back


# for each kind the expression of a size, and what it comes to
KINDS = {
    "1+1+..": (lambda size: chain("", "1", "+", "", size), lambda text: text.count("1")),
    "blanks before a literal": (lambda size: " " * (size - 1) + "1", lambda text: 1),
    "blanks behind a literal": (lambda size: "1" + " " * (size - 1), lambda text: 1),
    "32 parentheses around a chain": (lambda size: chain("(" * 32, "1", "-", ")" * 32, size), lambda text: 1 - text.count("-")),
    "a chain of comparisons": (lambda size: chain("", "1", "<", "", size), lambda text: 1 - text.count("<") % 2),
    "all ten levels, then blanks": (lambda size: "0||1&&0|0^1&1==1<1<<0+1*1" + " " * (size - 26), lambda text: 1),
    "a chain of nested operands": (lambda size: chain("", "(-(~1))", "|", "", size), lambda text: 2),
    "one long literal": (lambda size: "0" * (size - 1) + "7", lambda text: 7),
}


def instructions(counter, text, value):
    counted = counter.run(PROGRAM, text.encode())
    if counted.output != b"%d\n" % value:
        sys.exit("an expression of %d bytes came to %.60r instead of %d" % (len(text), counted.output, value))
    return counted.instructions


def main():
    counter = Counter()
    base = instructions(counter, "1", 1)
    for name, (build, value) in KINDS.items():
        small, large = (instructions(counter, text, value(text)) - base for text in (build(8192), build(65536)))
        ratio = large / small
        print("%-32s %9d at 8 KB %10d at 64 KB, ratio %.2f, %.1f a byte" % (name, small, large, ratio, large / 65536))
        judge(name, ratio <= MOST, "the cost grows faster than the expression")
    finish()


main()
