#!/usr/bin/env python3
"""set_cost.py: what judging a set costs, and one step of include and sinclude, in instructions (bench/counted.py).

Judging is one hop from kind to kind: it takes at most MOST_JUDGED for each kind of the set. An include passes once over the kinds up to the item that it finds,
once over the bytes of each name there that is as long as the one asked for, once more over the kinds of the item, and once over the contents: it takes at most
MOST_ITEM, MOST_CHUNK, MOST_COMPARED and MOST_COPIED for each of these, and MOST_STEP beside them. Each is tried on the worst sets, of a quarter of the longest
and as long as may be; a third of what it may take must be reached, or the sets would show nothing. All numbers must be those that are written here.

Ends with 'N passed, M failed'; exit status 0 only if M is 0.
"""
import collections
import os
import sys

sys.dont_write_bytecode = True
HERE = os.path.dirname(os.path.abspath(__file__))
sys.path[:0] = [os.path.join(HERE, "..", "shared"), os.path.join(HERE, "..", "..", "bench")]
from counted import Counter  # noqa: E402
from set_runs import EMPTY, LONGEST, Run, asked, build, chunks, told, written  # noqa: E402
from tally import finish, judge  # noqa: E402

SIZES = [LONGEST // 4, LONGEST]
# the most instructions: of judging by the kind; of an include by the item, the chunk, the byte compared and the byte copied, and beside them
MOST_JUDGED = 20
MOST_ITEM, MOST_CHUNK, MOST_COMPARED, MOST_COPIED, MOST_STEP = 40, 20, 10, 1, 1000
LEAST = 1 / 3
NUMBERED = b"%06d"


class Worst(collections.namedtuple("Worst", "items name")):
    """A set by its items, and the name that is asked for."""

    def found(self):
        """The first item with the name, or None."""
        return next((one for one in self.items if one[0] == self.name), None)

    def passed(self):
        """The items that a search passes over."""
        return self.items[: self.items.index(self.found()) + 1] if self.found() else self.items

    def judged(self):
        """The most that judging may take; the set's end is a kind too."""
        return MOST_JUDGED * (sum(1 + chunks_of(one) for one in self.items) + 1)

    def included(self):
        """The most that an include may take."""
        search = sum(MOST_ITEM + MOST_CHUNK * chunks_of(one) + MOST_COMPARED * (len(self.name) if len(one[0]) == len(self.name) else 0) for one in self.passed())
        found = self.found()
        return MOST_STEP + search + (MOST_CHUNK * chunks_of(found) + MOST_COPIED * len(found[1]) if found else 0)


def chunks_of(one):
    return chunks(len(one[0]) + len(one[1]))


# the worst sets of about n bytes; an item has nine bytes, and one for each chunk


def empty_items(n):
    return Worst([(b"", b"")] * ((n - 1) // 9), b"b")


def short_names(n):
    return Worst([(b"a", b"")] * ((n - 1) // 11), b"b")


def long_text(n):
    """Another name, and the text is hopped over: 129 bytes for 128 of it."""
    return Worst([(b"a", b"x" * ((n - 200) // 129 * 128))], b"b")


def long_names(n):
    """16 names that differ in their last byte from the one asked for."""
    long = b"a" * (n // 16 * 127 // 128 - 100)
    return Worst([(long + b"b", b"")] * 16, long + b"c")


def last_of_many(n):
    """As many names of six bytes, each another, as leave room for the last, which has all that buffer 1 takes; they have 16 bytes each."""
    text = b"x" * (n // 16)
    many = (n - len(text) * 129 // 128 - 200) // 16
    return Worst([(NUMBERED % k, b"") for k in range(many)] + [(NUMBERED % many, text)], NUMBERED % many)


def one_alone(n):
    return Worst([(b"a", b"x" * (n // 16))], b"a")


WORST = {
    "items without a byte": empty_items,
    "names of a byte": short_names,
    "a long text hopped over": long_text,
    "16 long names": long_names,
    "the last of many": last_of_many,
    "a long text included": one_alone,
}


class Costs:
    """The driver, and what its calls take."""

    def __init__(self):
        self.counter = Counter()
        self.program = self.counter.at("driver")
        build(self.program)

    def between(self, first, second):
        """How much more the second run takes than the first; both must give what they should."""
        counts, output = self.counter.calls(self.program, asked([first, second]), "quenhovach_expand")
        if output != told([first, second]) or len(counts) != 2:
            sys.exit("%.200r instead of %.200r" % (output, told([first, second])))
        return counts[1] - counts[0]

    def judging(self, whole):
        """The empty text with the set, beside the empty set: one step, done."""
        return self.between(*(Run(b"", lent, 1, (0, 0, 1, 0, 0, 0), b"") for lent in (EMPTY, whole)))

    def step(self, macro, worst, whole):
        """The third step closes the call: budgets of 2 and 3. Where no item has the name, include is refused there with 15."""
        text = b"%s(`%s')" % (macro, worst.name)
        before = (3, 0, 2, len(text) - 1, 0, 0)
        after = (15, *before[1:]) if macro == b"include" and not worst.found() else (3, 0, 3, len(text), 0, 0)
        return self.between(Run(text, whole, 2, before, b""), Run(text, whole, 3, after, b""))


def hold(name, count, most):
    print("%-45s %9d of %9d" % (name, count, most), flush=True)
    judge(name, most * LEAST <= count <= most, "it takes more than it may, or less than a third of that")


def main():
    costs = Costs()
    for name, make in WORST.items():
        for size in SIZES:
            worst = make(size)
            whole = written(worst.items)
            told_as = "%s, %d KB" % (name, len(whole) // 1000)
            if len(whole) > size:
                sys.exit("%s: more than %d bytes" % (told_as, size))
            hold("judged: " + told_as, costs.judging(whole), worst.judged())
            for macro in (b"include", b"sinclude"):
                hold("%s: %s" % (macro.decode(), told_as), costs.step(macro, worst, whole), worst.included())
    finish()


main()
