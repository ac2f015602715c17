#!/usr/bin/env python3
"""run.py [--table] [NAME..]: the tests can fail.

Each edit of this folder puts one fault into the sources. For each, a temporary copy of the repository gets the edit, the archive and the
programs are compiled from it without a proof (build.py), and the tests that judge compiled code are run there. A mutant passes where at
least one of them fails. The last test, which takes long, is only run on a mutant that no other has caught. Before all that, the copy is
built and tested as it stands, and has to pass every test.

An edit has a remark, and then 'file:' (from the root of the repository), 'old:' and 'new:' lines; the old text stands once in the file.
With names of edits only these are tried. With --table docs/MUTANTS.md is written where all is as it should be, anew or, with names, the rows of these
edits; nothing else is written outside of temporary folders. Needs rt, gcc, g++, cargo, valgrind and m4. Ends with 'N passed, M failed'; exit status 0 only if M is 0.
"""
import glob
import os
import re
import shutil
import signal
import subprocess
import sys
import tempfile
import time

sys.dont_write_bytecode = True
HERE = os.path.dirname(os.path.abspath(__file__))
sys.path.insert(0, os.path.join(HERE, "..", "shared"))
import tally  # noqa: E402
from build import PROGRAMS, BuildError, build  # noqa: E402
from places import ROOT  # noqa: E402

TABLE = os.path.join(ROOT, "docs", "MUTANTS.md")
SEED, CASES = "1", "20000"
PATIENCE = 900

# name, file and words of each test, in the order in which they are run
TESTS = [
    ("expand_program", "tests/interfaces/expand_program.py", []),
    ("c_example", "tests/interfaces/c_example.py", []),
    ("worked_texts", "crates/worked_texts/stdout", None),
    ("differential", "tests/differential/run", [SEED, CASES]),
    ("gnu", "tests/gnu/run.py", []),
    ("examples", "tests/documents/examples.py", []),
    ("stack", "tests/costs/stack.py", []),
    ("sheet_cost", "tests/costs/sheet_cost.py", []),
    ("lines_cost", "tests/costs/lines_cost.py", []),
    ("set_cost", "tests/costs/set_cost.py", []),
    ("step_costs", "tests/costs/step_costs.py", []),
]
# What a failed part of tests/differential/run shows: words of its name, words of what it says or its exit status, and the name for it. The first row that
# fits counts. Most parts compare random cases with the model; a trap and valgrind's exit status 9 show more than that.
PARTS = [
    ("vectors.tsv", "", "vectors"),
    ("each byte", "", "each byte"),
    ("each predefined name", "", "each name"),
    ("open comments", "", "open comments"),
    ("copies of each meaning", "", "copies"),
    ("names of one bucket", "", "one bucket"),
    ("tables of many names", "", "tables"),
    ("sets of every form", "", "sets"),
    ("histories.tsv", "", "histories.tsv"),
    ("every byte once", "", "every byte once"),
    ("sheets.tsv", "", "sheets.tsv"),
    ("decimals of every shape", "", "decimals"),
    ("lines.tsv", "", "lines.tsv"),
    ("against counting", "", "counting"),
    ("third demand", "", "third demand"),
    ("lengths above", "", "huge lengths"),
    ("between inaccessible pages", "SIGSEGV", "trap"),
    ("cases under valgrind", "exit status 9 ", "valgrind"),
    ("valgrind finds", "", "its own checks"),
    ("the sheet in", "", "random sheets"),
    ("around a sheet", "", "random sheets"),
    ("index of lines", "", "random indexes"),
    ("", "", "random cases"),
]

HEAD = """# Mutants

The tests can fail: each row is one fault, put into a copy of the source (tests/mutants/NAME.edit), compiled without a proof and given to the tests that
judge compiled code. No proof is asked for here, to see what the tests notice by themselves.

    python3 tests/mutants/run.py --table

writes this page. It is not part of `./test`, since it takes long: %d minutes on %d cores for the last run of all, with seed %s and %s cases
in tests/differential/run. Rows of mutants that came later, or were changed, are tried by themselves and put in, by their names behind `--table`.
First the source as it stands was built in the same way each time, and passed all of these tests:
%s.

| mutant | what is wrong | caught by |
|---|---|---|
"""
FOOT = """
Of `differential` (tests/differential/run) the table names what showed the fault: `vectors`, the lines of tests/vectors.tsv through the archive; `each byte` wherever
its class is asked for, `each name` that is predefined wherever it may stand, `open comments` wherever one may begin, `copies` of each meaning onto names of every kind,
names of `one bucket` changed in every order, `tables` of hundreds of names, many of them in one bucket, `sets` that are good, damaged, cut and as long as may be,
and `random cases`, on which archive and model differ; `histories.tsv`, the histories that were worked out by hand, and `every byte once`, random cases whose
output has other bytes than those of its numbers (document 02, request 8), or on which archive and model differ; `sheets.tsv`, the vectors of the sheet, `decimals` of every shape, and `random sheets`, on which archive and model
differ; `lines.tsv`, the vectors of the index of lines,
`counting` through the text, which gives another line, start or index, and `random indexes`, on which archive and model differ; `third demand`, two settings that break
the letter's third demand; `huge lengths`, above 4,294,967,295; `trap`, a read or write outside of what is lent, between inaccessible pages; `valgrind`, the same or the
use of what was there before.
`sheet_cost` counts the instructions of the sheet, `lines_cost` those of the index of lines, `set_cost` those of judging a set and of an include. `step_costs` takes more than a minute, and was tried
only on what no other test caught.

Compiled code does not check an index: what a read or write outside comes to may differ from run to run, but for the trap and valgrind.
"""


class Edit:
    """A fault: its name, what is wrong, and the replacements (file, old, new)."""

    def __init__(self, path):
        self.name = os.path.basename(path)[: -len(".edit")]
        self.pairs, remark, file, old = [], [], None, None
        for line in open(path, encoding="utf-8").read().splitlines():
            if line.startswith("file: "):
                file = line[len("file: ") :]
            elif line.startswith("old: "):
                old = line[len("old: ") :]
            elif line.startswith("new:"):
                self.pairs.append((file, old, line[len("new:") :].removeprefix(" ")))
            else:
                remark.append(line)
        self.remark = " ".join(remark).strip()

    def apply(self, tree):
        """Puts the fault in; gives the files as they were."""
        before, after = {}, {}
        for file, old, new in self.pairs:
            path = os.path.join(tree, file)
            if path not in before:
                before[path] = after[path] = open(path, encoding="utf-8").read()
            if after[path].count(old) != 1:
                raise BuildError("its old text stands %d times in %s" % (after[path].count(old), file))
            after[path] = after[path].replace(old, new)
        if not before:
            raise BuildError("it has no replacement")
        for path, text in after.items():
            write(path, text)
        return before


def write(path, text):
    with open(path, "w", encoding="utf-8") as f:
        f.write(text)


def finished(words, tree):
    """Exit status and output of a command that has some time to end; None as status where it does not."""
    clean = {name: value for name, value in os.environ.items() if name != "QUENHOVACH_LIB_DIR"}
    with tempfile.TemporaryFile() as out:
        child = subprocess.Popen(words, cwd=tree, env=clean, stdin=subprocess.DEVNULL, stdout=out, stderr=subprocess.STDOUT, start_new_session=True)
        try:
            status = child.wait(PATIENCE)
        except subprocess.TimeoutExpired:
            os.killpg(child.pid, signal.SIGKILL)
            child.wait()
            status = None
        out.seek(0)
        return status, out.read().decode(errors="replace")


def failed_parts(said):
    """What the parts of tests/differential/run that failed show, each once."""
    found = re.findall(r"^(.*): (exit status \d+ instead of \d+\n(?:(?!.*: (?:exit status|as it should be)).*\n)*)", said, re.M)
    return list(dict.fromkeys(next(short for name, sign, short in PARTS if name in part and sign in told) for part, told in found))


def worked_texts(tree):
    """What the program worked_texts writes, against what is stored."""
    status, said = finished([os.path.join(tree, "crates", "worked_texts", "out", "worked_texts")], tree)
    stored = open(os.path.join(tree, "crates", "worked_texts", "stdout"), encoding="utf-8").read()
    return status == 0 and said == stored, said


def catch(tree, name, file, words):
    """None where a test passes, else its name with what of it failed, and what it said."""
    if words is None:
        good, said = worked_texts(tree)
        return None if good else (name, said)
    status, said = finished(([sys.executable] if file.endswith(".py") else []) + [os.path.join(tree, file)] + words, tree)
    last = said.rstrip("\n").split("\n")[-1]
    if status == 0 and re.fullmatch(r"[1-9]\d* passed, 0 failed", last):
        return None
    parts = failed_parts(said)
    return name + (" (%s)" % ", ".join(parts) if parts else " (did not end)" if status is None else ""), said


def install(tree):
    """Builds the tree, and puts archive and programs where the tests look for them."""
    with tempfile.TemporaryDirectory() as out:
        build(tree, out)
        for crate, name in [(name, name) for name in PROGRAMS] + [("quenhovach", "libquenhovach.a")]:
            os.makedirs(os.path.join(tree, "crates", crate, "out"), exist_ok=True)
            shutil.copy(os.path.join(out, name), os.path.join(tree, "crates", crate, "out", name))


def clean_passes(tree):
    """The source as it stands is built and passes every test."""
    try:
        install(tree)
    except BuildError as fault:
        print("the source as it stands: %s" % fault)
        return False
    caught = [catch(tree, *test) for test in TESTS]
    for name, said in filter(None, caught):
        print("the source as it stands fails %s:\n%s" % (name, said[-3000:]))
    return not any(caught)


def catchers(tree, edit):
    """The tests that catch a mutant."""
    before = edit.apply(tree)
    try:
        install(tree)
    finally:
        for path, text in before.items():
            write(path, text)
    *most, last = TESTS
    caught = [found[0] for found in (catch(tree, *test) for test in most) if found]
    if not caught:
        caught = [found[0] for found in [catch(tree, *last)] if found]
    return caught


def try_edits(tree, edits):
    """For each edit the tests that catch it; an edit that can't be built shows nothing and counts as not caught."""
    rows = []
    for edit in edits:
        began = time.time()
        try:
            caught = catchers(tree, edit)
            told = "caught by " + ", ".join(caught) if caught else "NOT CAUGHT"
        except BuildError as fault:
            caught, told = [], "NOT BUILT: %s" % fault
        print("%s: %s (%d s)" % (edit.name, told, time.time() - began), flush=True)
        tally.count(bool(caught), not caught)
        rows.append((edit, caught))
    return rows


def standing():
    """The rows of docs/MUTANTS.md as it stands, by their names, and how many minutes its last run of all took."""
    text = open(TABLE, encoding="utf-8").read()
    return {line.split(" | ")[0][2:]: line for line in text.splitlines() if re.match(r"\| \w+ \| .* \|$", line)}, int(re.search(r"(\d+) minutes", text)[1])


def page(rows, minutes, names, kept):
    """The page, with rows of an earlier run for the edits that were not tried now."""
    cell = lambda words: words.replace("|", "\\|")
    lines = dict(kept, **{edit.name: "| %s | %s | %s |" % (edit.name, cell(edit.remark), ", ".join(caught)) for edit, caught in rows})
    lines = [lines[name] for name in sorted(lines)]
    return HEAD % (minutes, os.cpu_count(), SEED, "{:,}".format(int(CASES)), ", ".join(names)) + "\n".join(lines) + "\n" + FOOT


def main():
    names = [word for word in sys.argv[1:] if word != "--table"]
    edits = [Edit(path) for path in sorted(glob.glob(os.path.join(HERE, "*.edit")))]
    unknown = set(names) - {edit.name for edit in edits}
    if unknown:
        sys.exit("no such edit: %s" % ", ".join(sorted(unknown)))
    began = time.time()
    rows = []
    with tempfile.TemporaryDirectory() as folder:
        tree = os.path.join(folder, "tree")
        shutil.copytree(ROOT, tree, ignore=shutil.ignore_patterns(".git", "target", "out", "__pycache__"))
        tried = [test[0] for test in TESTS]
        clean = clean_passes(tree)
        tally.count(clean, not clean)
        if clean:
            print("the source as it stands passes %s (%d s)" % (", ".join(tried), time.time() - began), flush=True)
            rows = try_edits(tree, [edit for edit in edits if not names or edit.name in names])
    if "--table" in sys.argv and tally.failed == 0:
        kept, minutes = standing() if names else ({}, round((time.time() - began) / 60))
        write(TABLE, page(rows, minutes, tried, {edit.name: kept[edit.name] for edit in edits if edit.name in kept}))
    tally.finish()


if __name__ == "__main__":
    main()
