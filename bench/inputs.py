#!/usr/bin/env python3
"""The texts of the benchmark, the same in every run. `bench/inputs.py NAME` writes one of them to standard output.

GNU m4 and document 01 have one rule for all that is used here, so both write the same bytes.
"""
import random
import sys

LARGE, SMALL = 64000, 8000
WORDS = ("the mast stands on its base and the crew reads every guy before a cable is cut "
         "when wind from the north turns sway into load that a filter must not hide").split()


def chooser():
    """A function that picks from a list; the order of its picks is fixed (only `random()` is the same in all versions of Python)."""
    numbers = random.Random(7)
    return lambda choices: choices[int(numbers.random() * len(choices))]


def prose(size):
    """Words in lines of about 70 bytes, some with a full stop, comma or semicolon behind them."""
    pick, text, column = chooser(), "", 0
    while len(text) < size:
        word = pick(WORDS) + (pick(".,;") if pick(range(12)) == 0 else "")
        column += len(word) + 1
        text += word + (" " if column <= 70 else "\n")
        column = column if column <= 70 else 0
    return text[:size]


def lines(first, line, size):
    """The line `first` and as many of line(0), line(1), .. as fit into `size` bytes."""
    text, i = first, 0
    while len(text) + len(line(i)) <= size:
        text += line(i)
        i += 1
    return text


def names():
    """200 names defined and used 3,000 times in all, eight to a line."""
    pick, all_names = chooser(), ["sway_x_%d" % i for i in range(200)]
    text = "".join("define(`%s',`%d.%d')dnl\n" % (name, i, i % 7) for i, name in enumerate(all_names))
    return text + "".join(pick(all_names) + ("\n" if i % 8 == 7 else " ") for i in range(3000))


def loop():
    """A definition that calls itself 5,000 times."""
    return "define(`loop',`ifelse($1,0,`done',`$1 loop(decr($1))')')dnl\nloop(5000)\n"


def evaluations():
    """An eval in each of 2,500 turns."""
    return "define(`ev',`ifelse($1,0,`',`eval($1*3+(7-2)%4) ev(decr($1))')')dnl\nev(2500)\n"


def diversions(size):
    """Lines of text sent to streams 1 to 9 in turn."""
    return lines("define(`put',`divert($1)$2\ndivert(0)')dnl\n",
                 lambda i: "put(%d,`guy %d holds %s')dnl\n" % (i % 9 + 1, i, WORDS[i % len(WORDS)]), size)


def quotes(size):
    """Calls with quotes in quotes, four deep."""
    return lines("define(`q',`$1')dnl\n", lambda i: "q(``a `b `c' %s' d'')q(`x `y' z')\n" % WORDS[i % len(WORDS)], size)


GROWING = {"prose": prose, "diversions": diversions, "quotes": quotes}
TEXTS = {
    "prose": prose(LARGE),
    "names": names(),
    "loop": loop(),
    "eval": evaluations(),
    "diversions": diversions(LARGE),
    "quotes": quotes(LARGE),
}

if __name__ == "__main__":
    sys.stdout.write(TEXTS[sys.argv[1]])
