"""Runs with a set: how a set is written (02, request 1), and the driver set_runs.c, which makes them.

The driver is linked to the archive crates/quenhovach/out/libquenhovach.a, or to that of the folder QUENHOVACH_LIB_DIR. (The program `expand` lends the empty set.)
"""
import collections
import os
import subprocess

from places import ARCHIVE, ROOT

FOLDER = os.environ.get("QUENHOVACH_LIB_DIR")
LIBRARY = os.path.join(FOLDER, "libquenhovach.a") if FOLDER else ARCHIVE
DRIVER = os.path.join(os.path.dirname(os.path.abspath(__file__)), "set_runs.c")
FULL = 128  # bytes of a full chunk
EMPTY = b"\0"
LONGEST = 1048576

# what the driver is given, and what it has to give: the six numbers of the report, and the output
Run = collections.namedtuple("Run", "text set budget numbers output")


def build(program):
    subprocess.run(["gcc", "-O2", "-Wall", "-Wextra", "-Werror", "-I", os.path.join(ROOT, "include"), "-o", program, DRIVER, LIBRARY], check=True)


def chunks(count):
    """How many chunks so many bytes take."""
    return -(-count // FULL)


def item(name, text):
    joined = name + text
    pieces = [joined[i : i + FULL] for i in range(0, len(joined), FULL)]
    return b"\x81" + b"".join(len(part).to_bytes(4, "little") for part in (name, text)) + b"".join(bytes([len(piece)]) + piece for piece in pieces)


def written(items):
    return b"".join(item(*one) for one in items) + EMPTY


def asked(runs):
    """What the driver reads."""
    return b"".join(b"%d %d %d\n%s%s" % (run.budget, len(run.text), len(run.set), run.text, run.set) for run in runs)


def told(runs):
    """What it has to write."""
    return b"".join(b"%d %d %d %d %d %d\n%s" % (*run.numbers, run.output) for run in runs)
