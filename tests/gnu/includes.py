"""Texts that include others, for run.py: the templates of tests/gnu/included, with what is below its folder parts, and random texts cut in pieces.

Both programs put the text of a file in front of the rest, so that a name, a quote or a call may go on behind it. They differ where a file is missing
(docs/GNU.md), so no text here includes one that is. `files` are the texts that may be included, by their names.
"""
import collections
import glob
import os

import texts

FOLDER = os.path.join(os.path.dirname(os.path.abspath(__file__)), "included")
PARTS = os.path.join(FOLDER, "parts")

Case = collections.namedtuple("Case", "name text files")


def templates():
    return [path[: -len(".m4")] for path in sorted(glob.glob(os.path.join(FOLDER, "*.m4")))]


def random_case(seed):
    """A random text, each piece of it in a file. In every second one the main text has all calls; in the others each file has the next one's at its end."""
    pieces = texts.pieces(seed)
    calls = [("%sinclude(piece%d)" % (empty, number)).encode("latin-1") for number, (empty, _) in enumerate(pieces)]
    files = {"piece%d" % number: piece.encode("latin-1") for number, (_, piece) in enumerate(pieces)}
    if seed % 2:
        return Case("random pieces %d" % seed, b"".join(calls) + b"\n", files)
    for number, call in enumerate(calls[1:]):
        files["piece%d" % number] += call
    return Case("random pieces %d, nested" % seed, calls[0] + b"\n", files)


def put(folder, files):
    for name, text in files.items():
        with open(os.path.join(folder, name), "wb") as f:
            f.write(text)
