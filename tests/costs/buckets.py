#!/usr/bin/env python3
"""buckets.py [PROGRAM]: names spread over the 199 buckets, and no two predefined names share one.

A search reads one bucket, so it costs what the fullest one holds. Families of names that differ in a number alone, as a template numbers its masts and guys,
are put to the proved hash: the program crates/vectors/out/vectors, or another, tells the bucket of each (crates/vectors/src/names.rt). The fullest bucket
has to hold at most twice the mean of all 199, and four more. Ends with 'N passed, M failed'; exit status 0 only if M is 0.
"""
import collections
import os
import re
import subprocess
import sys

sys.dont_write_bytecode = True
sys.path.insert(0, os.path.join(os.path.dirname(os.path.abspath(__file__)), "..", "shared"))
from places import ROOT, program  # noqa: E402
from tally import check, finish, judge, stop  # noqa: E402

BUCKETS = 199
FAMILIES = ["sway_x_%d", "sway_%d_x", "guy%d_load", "v%d", "ring_lower_%d_height"]
COUNTS = [200, 5000]
# so many names are asked for in one run
AT_ONCE = 2500
ANSWER = re.compile(r"^#(\w+) is in (\d+), its first (\d+) in (\d+)$", re.M)


def predefined():
    """The predefined names, as the book lists them."""
    book = open(os.path.join(ROOT, "crates", "rules", "specs", "Table.antt"), encoding="utf-8").read()
    return re.findall(r'bytes_of "(\w+)"', re.search(r"^predefined_names =\n(.*?)\[\]", book, re.M | re.S)[1])


def buckets_of(names):
    """The bucket of each name: the same for the whole text and for the name that is found at its front."""
    found = []
    for at in range(0, len(names), AT_ONCE):
        asked = names[at : at + AT_ONCE]
        run = subprocess.run([PROGRAM], input="".join("#%s\n" % name for name in asked), capture_output=True, text=True)
        told = ANSWER.findall(run.stdout)
        if run.returncode != 0 or [name for name, _, _, _ in told] != asked:
            stop("%s: it ended with %d and told the buckets of %d names, not %d" % (PROGRAM, run.returncode, len(told), len(asked)))
        for name, bucket, end, front in told:
            if int(end) != len(name) or front != bucket or int(bucket) >= BUCKETS:
                stop("%s is in bucket %s, but found as %s bytes in bucket %s" % (name, bucket, end, front))
            found.append(int(bucket))
    return found


def try_family(family, count):
    held = collections.Counter(buckets_of([family % i for i in range(count)]))
    fullest, most = max(held.values()), 2 * count / BUCKETS + 4
    print("%5d names %-22s fullest bucket %2d of at most %d, %3d buckets in use" % (count, family, fullest, most, len(held)))
    judge("%d names %s" % (count, family), fullest <= most, "a bucket holds %d of them" % fullest)


def main():
    for count in COUNTS:
        for family in FAMILIES:
            try_family(family, count)
    names = predefined()
    shared = [b for b, n in collections.Counter(buckets_of(names)).items() if n > 1]
    check("buckets that two of the %d predefined names share" % len(names), shared, [])
    finish()


PROGRAM = sys.argv[1] if len(sys.argv) > 1 else program("vectors")
if __name__ == "__main__":
    main()
