#!/usr/bin/env python3
"""plain_search.py [SEED COUNT]: with the plain newest-first search in the place of the buckets every run is the same.

02, request 9: "For each table and each name the answer equals that of the plain newest-first search". crates/expander keeps that search as code, `newest_plain`. A
copy of the sources gets it in the place of the search by bucket, in `newest`, `look_up` and `pop`; `meaning_of` and `nothing_in`, which look at a bucket first, look there no longer. The
copy is compiled without a proof (tests/mutants/build.py), and a driver (plain_search.c) makes the same calls with it and with the archive
crates/quenhovach/out/libquenhovach.a, or that of the folder QUENHOVACH_LIB_DIR: all lines of tests/vectors.tsv, COUNT tables of many names (default 300, seed 1), each
in six settings, and 20 * COUNT random cases. What is returned, all six numbers and every byte lent must be equal.

That the copy does search plainly, and the archive does not, is seen by time: one name is used very often below 2,000 others. An edit that finds no place fails.
Ends with 'N passed, M failed'; exit status 0 only if M is 0.
"""
import glob
import os
import re
import shutil
import subprocess
import sys
import tempfile
import time

sys.dont_write_bytecode = True
HERE = os.path.dirname(os.path.abspath(__file__))
sys.path[:0] = [os.path.join(HERE, "..", "shared"), os.path.join(HERE, "..", "mutants")]
from build import BuildError, build_archive  # noqa: E402
from places import ARCHIVE, ROOT  # noqa: E402
from tally import fail, finish, judge  # noqa: E402

FOLDER = os.environ.get("QUENHOVACH_LIB_DIR")
LIBRARY = os.path.join(FOLDER, "libquenhovach.a") if FOLDER else ARCHIVE
TARGET = os.path.join(ROOT, "target", "differential")
VECTORS = os.path.join(ROOT, "tests", "vectors.tsv")
LENT = 65536
# the plain search takes more than so many times as long, where it passes 2,000 definitions for each use of a name; it is tried so often
SLOWER, TIMES = 2, 20


class Source:
    """The sources of the expander, in a tree, by the names of their functions."""

    def __init__(self, tree):
        self.texts = {path: open(path, encoding="utf-8").read() for path in glob.glob(os.path.join(tree, "crates", "expander", "src", "*.rt"))}

    def found(self, name):
        """Path, parameters, and where the body begins and ends, of a function that stands once and by itself."""
        heads = [(path, head) for path, text in self.texts.items() for head in re.finditer(r"^(?:pub(?:\(crate\))? )?fn %s(?:<[^>]*>)?\(([^)]*)\)" % name, text, re.M)]
        if len(heads) != 1:
            raise BuildError("the function %s stands %d times in crates/expander/src" % (name, len(heads)))
        path, head = heads[0]
        body = re.compile(r"^\{\n(.*?)^\}$", re.M | re.S).search(self.texts[path], head.end())
        other = re.compile(r"^(?:pub(?:\(crate\))? )?fn ", re.M).search(self.texts[path], head.end())
        if not body or (other and other.start() < body.start()):
            raise BuildError("the body of %s is not where it was" % name)
        return path, re.findall(r"(\w+):", head[1]), body

    def body(self, name):
        return self.found(name)[2][1]

    def replace(self, name, body):
        path, _, old = self.found(name)
        text = self.texts[path]
        self.texts[path] = text[: old.start(1)] + "    %s\n" % body + text[old.end(1) :]

    def call(self, name, caller):
        """A call of a function with parameters of its caller, by their names."""
        parameters, others = self.found(name)[1], self.found(caller)[1]
        if not set(parameters) <= set(others):
            raise BuildError("%s takes %s, and %s has %s" % (name, ", ".join(parameters), caller, ", ".join(others)))
        return "%s(%s)" % (name, ", ".join(parameters))

    def write(self):
        for path, text in self.texts.items():
            with open(path, "w", encoding="utf-8") as f:
                f.write(text)


def made_plain(tree):
    """The sources of a tree get the plain search."""
    source = Source(tree)
    if re.search(r"bucket|link|head", source.body("newest_plain"), re.I):
        raise BuildError("newest_plain looks at a bucket")
    plain = source.call("newest_plain", "newest")
    searched = source.call("newest_in", "look_up_in")
    looked_up = once(source.body("look_up_in").strip(), searched, plain)
    source.replace("newest", plain)
    source.replace("look_up", once(looked_up, "buckets::candidate_at(ends, bucket)", "builtins::candidate(hashing::bucket_of(name))"))
    source.replace("meaning_of", source.call("look_up", "meaning_of"))
    source.replace("nothing_in", "false")
    path = source.found("look_up")[0]
    source.texts[path] = once(source.texts[path], "        let place = %s;" % searched, "        let place = %s;" % plain.replace("packed", "self.packed"))
    source.write()


def once(text, old, new):
    """A text with a part exchanged that stands there once."""
    if text.count(old) != 1:
        raise BuildError("this stands %d times where it should once: %s" % (text.count(old), old))
    return text.replace(old, new)


def plain_archive(folder):
    """The archive of a copy with the plain search."""
    tree, work, out = (os.path.join(folder, name) for name in ("tree", "work", "plain"))
    shutil.copytree(ROOT, tree, ignore=shutil.ignore_patterns(".git", "target", "__pycache__"))
    made_plain(tree)
    os.makedirs(work)
    os.makedirs(out)
    build_archive(tree, work, out)
    return os.path.join(out, "libquenhovach.a")


def driver(folder, name, library):
    program = os.path.join(folder, name)
    words = ["gcc", "-O2", "-Wall", "-Wextra", "-Werror", "-I", os.path.join(ROOT, "include"), "-o", program, os.path.join(HERE, "plain_search.c"), library]
    subprocess.run(words, check=True)
    return program


def cases(folder, seed, count):
    """A file with the cases."""
    env = dict(os.environ, CARGO_TARGET_DIR=TARGET)
    subprocess.run(["cargo", "build", "--offline", "--release", "--quiet", "--manifest-path", os.path.join(HERE, "Cargo.toml")], env=env, check=True)
    path = os.path.join(folder, "cases")
    subprocess.run([os.path.join(TARGET, "release", "differential"), "cases", seed, count, VECTORS, path], stdout=subprocess.DEVNULL, check=True)
    return path


def ran(program, path):
    """The lines of a driver, and the seconds that it took."""
    began = time.monotonic()
    with open(path, "rb") as given:
        done = subprocess.run([program], stdin=given, stdout=subprocess.PIPE, text=True)
    if done.returncode != 0:
        raise BuildError("%s ended with exit status %d" % (os.path.basename(program), done.returncode))
    return done.stdout.splitlines(), time.monotonic() - began


def deep_use(folder):
    """A case in which the oldest of 2,001 names, none of which shares its bucket with many, is used 5,000 times; so often that the start of a process does not count."""
    others = b"".join(b"define(`sway_%d')" % k for k in range(2000))
    text = b"define(`mast')" + others + b"mast " * 5000
    path = os.path.join(folder, "deep")
    with open(path, "wb") as f:
        f.write(b"%d %s %d 1\n%s\0" % (10**6, b" ".join([b"%d" % LENT] * 7), len(text), text) * TIMES)
    return path


def quickest(program, path):
    """The quickest of five times."""
    return min((ran(program, path) for _ in range(5)), key=lambda found: found[1])


def compare(folder, seed, count):
    plain = driver(folder, "by_plain_search", plain_archive(folder))
    bucket = driver(folder, "by_bucket", LIBRARY)
    path = cases(folder, seed, count)
    (wanted, _), (got, _) = ran(plain, path), ran(bucket, path)
    answers = {line.split()[0] for line in got}
    print("%d cases, with the answers %s" % (len(got), ", ".join(sorted(answers, key=int))))
    judge("the cases", len(got) == len(wanted) > 20 * int(count), "%d and %d were run" % (len(wanted), len(got)))
    others = [(number, lines) for number, lines in enumerate(zip(wanted, got)) if lines[0] != lines[1]]
    judge("the same by both searches", not others, "%d are others; the first, case %s" % (len(others), others[:1]))
    (wanted, slow), (got, fast) = (quickest(program, deep_use(folder)) for program in (plain, bucket))
    print("a name used 5,000 times below 2,000 others: %.3f s, by its bucket %.3f s" % (slow, fast))
    judge("the copy searches plainly", wanted == got and slow > SLOWER * fast, "it is not slower than the archive by more than %d times, or gives another answer" % SLOWER)


def main():
    seed, count = sys.argv[1:3] if len(sys.argv) > 2 else ("1", "300")
    with tempfile.TemporaryDirectory() as folder:
        try:
            compare(folder, seed, count)
        except BuildError as fault:
            fail("the plain search: %s" % fault)
    finish()


if __name__ == "__main__":
    main()
