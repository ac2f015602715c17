#!/usr/bin/env python3
"""A whole call of `expand` needs at most 1.25 MiB of stack, and so does one with a set, and one that reads a sheet too. Reading alone needs at most 128 KiB, and a question by
name 16 KiB.

The program lends its own buffers from the stack, 524,289 bytes; it is run with a stack limit of that, 1.25 MiB and 16 KB for the start of a process, on the worst
texts of each macro (worst_texts.py) and on those here, and must give what is written there. Nothing of the expander calls itself but the readers of an
expression, so these have the deepest stack: 32 nestings, with an operator of each level open in every one of them and inside the last.
Runs with a set are made by set_runs.c, which lends nothing from the stack, with the same limit less the buffers. Those of the sheet are made by sheet_stack.c in a thread
with such a stack.
A limit that is 400 KB smaller, and for reading 100 KB, must end the program by a signal, or the limit would show nothing. Ends with 'N passed, M failed'; exit status 0 only if M is 0.
"""
import os
import resource
import subprocess
import sys
import tempfile

sys.dont_write_bytecode = True
sys.path.insert(0, os.path.join(os.path.dirname(os.path.abspath(__file__)), "..", "shared"))
import set_runs  # noqa: E402
from places import ROOT, program  # noqa: E402
from tally import finish, judge  # noqa: E402
from worst_texts import END, WORST, Piece, joined, made, opened, run  # noqa: E402

PROGRAM = program("expand")
BUFFERS = 65537 + 7 * 65536
WITH_SET = 1280 * 1024 + 16 * 1024
ENOUGH = BUFFERS + WITH_SET
TOO_LITTLE = 400 * 1024  # less than that
# of the functions of the sheet, with 16 KB for the start of a thread
SHEET = {"expand": WITH_SET, "read": (128 + 16) * 1024, "find": (16 + 16) * 1024}
READ_TOO_LITTLE = 100 * 1024  # less than that
SHEET_STACK = os.path.join(os.path.dirname(os.path.abspath(__file__)), "sheet_stack.c")
LEVELS = b"0||1&&0|0^1&1==1<1<<0+1*"  # before an operand of 1 it comes to 1, and every side is worked out


def nested(depth):
    """Every operator level open in each of `depth` parentheses, and inside them."""
    return (LEVELS + b"(") * depth + LEVELS + b"1" + b")" * depth


def deepest():
    """32 nestings come to 1."""
    before = made(b"eval", nested(32))
    return run(before.text, before.steps + 1 + END, output=b"1")


def too_deep():
    """A 33rd is refused when the call is to be closed."""
    before = opened(b"eval", nested(33))
    refused = run(before.text, before.steps, number=8)
    return refused._replace(text=before.text + b")")


def open_calls():
    """Each of 64 calls gives x to the one around it: a step to close it, one to read x."""
    before = joined(made(b"define", b"f", b"$1"), Piece(b"f(" * 64 + b"x" + b")" * 64, 64 + 1 + 2 * 64))
    return run(before.text, before.steps + END, output=b"x")


def judged():
    """As many items as a set has room for, and the empty text."""
    return set_runs.Run(b"", set_runs.written([(b"", b"")] * ((set_runs.LONGEST - 1) // 9)), END, (0, 0, END, 0, 0, 0), b"")


def included():
    """The innermost of 64 open calls includes the last item. Its text goes through the 63 others: a step to read it, then two for each call, as above."""
    text = b"x" * 60000
    items = [(b"b", b"")] * ((set_runs.LONGEST - len(set_runs.written([(b"a", text)]))) // 11) + [(b"a", text)]
    before = joined(made(b"define", b"f", b"$1"), Piece(b"f(" * 63, 63), made(b"include", b"a"), Piece(b")" * 63, 1 + 2 * 63))
    steps = before.steps + END
    return set_runs.Run(before.text, set_runs.written(items), steps, (0, 0, steps, len(before.text), len(text), 0), text)


def longest_sheet():
    """256 lines of 256 bytes."""
    return b"".join(b"x" * 250 + b"%03d=1\n" % number for number in range(256))


# what is asked, the text, and the answer, the detail or bad line, the count of lines and the line that is found
SHEET_RUNS = [
    ("expand", "eval, 32 deep with all levels open", b"a=eval(" + nested(32) + b")", b"0 0 1 256\n"),
    ("expand", "the longest sheet", longest_sheet(), b"0 0 256 256\n"),
    ("expand", "no sheet", b"a", b"20 1 0 256\n"),
    ("expand", "a refusal", b"`", b"5 1 0 256\n"),
    ("read", "the longest sheet", longest_sheet(), b"0 0 256 256\n"),
    ("read", "one decimal", b"a=-1234567.12345678", b"0 0 1 256\n"),
    ("read", "a name given twice, in the last line", longest_sheet().replace(b"x255=1", b"x000=1"), b"21 256 0 256\n"),
    ("read", "257 lines", longest_sheet().replace(b"x" * 250 + b"254=1\n", b"a=1\nb=1\n"), b"22 257 0 256\n"),
    ("read", "no sheet", b"?" * 65536, b"20 1 0 256\n"),
    ("find", "the longest sheet", longest_sheet(), b"0 0 256 256\n"),
]


RUNS = {
    "the empty text": run(b"", END),
    "eval, 32 deep with all levels open": deepest(),
    "eval, 33 deep": too_deep(),
    "64 open calls": open_calls(),
    **{name: make(60000).whole for name, make in WORST.items()},
}
RUNS_WITH_SET = {"the longest set judged": judged(), "an include in 64 open calls": included()}


def limited(words, text, limit):
    def lower():
        resource.setrlimit(resource.RLIMIT_STACK, (limit, limit))

    return subprocess.run(words, input=text, capture_output=True, env={}, preexec_fn=lower)


def hold(name, done, output, errors):
    """A run in enough stack, and what it has to write."""
    judge(name, (done.returncode, done.stdout, done.stderr) == (0, output, errors),
          "exit status %d in 1.25 MiB of stack, %.40r and %r instead of %.40r and %r" % (done.returncode, done.stdout, done.stderr[-80:], output, errors[-80:]))


def hold_smaller(name, done):
    judge(name, done.returncode < 0, "it is enough too: this measures nothing")


def sheets(folder):
    driver = os.path.join(folder, "sheet_stack")
    words = ["gcc", "-O2", "-Wall", "-Wextra", "-Werror", "-I", os.path.join(ROOT, "include"), "-pthread", "-o", driver, SHEET_STACK, set_runs.LIBRARY]
    subprocess.run(words, check=True)
    run = lambda function, text, stack: subprocess.run([driver, function, str(stack)], input=text, capture_output=True)
    for function, name, text, told in SHEET_RUNS:
        done = run(function, text, SHEET[function])
        judge("the sheet, %s: %s" % (function, name), (done.returncode, done.stdout) == (0, told),
              "exit status %d in %d bytes of stack, %r instead of %r" % (done.returncode, SHEET[function], done.stdout, told))
    hold_smaller("a much smaller stack, expanding a sheet", run("expand", b"", SHEET["expand"] - TOO_LITTLE))
    hold_smaller("a much smaller stack, reading a sheet", run("read", b"", SHEET["read"] - READ_TOO_LITTLE))


def main():
    for name, wanted in RUNS.items():
        hold(name, limited([PROGRAM], wanted.text, ENOUGH), wanted.output, wanted.errors)
    hold_smaller("a much smaller stack", limited([PROGRAM], b"", ENOUGH - TOO_LITTLE))
    with tempfile.TemporaryDirectory() as folder:
        driver = [os.path.join(folder, "driver")]
        set_runs.build(driver[0])
        for name, wanted in RUNS_WITH_SET.items():
            hold(name, limited(driver, set_runs.asked([wanted]), WITH_SET), set_runs.told([wanted]), b"")
        hold_smaller("a much smaller stack, with a set", limited(driver, set_runs.asked([judged()]), WITH_SET - TOO_LITTLE))
        sheets(folder)
    finish()


main()
