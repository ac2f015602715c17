#!/usr/bin/env python3
"""incremental_edits.py [CRATE..]: the must-fail edits of the crates with code below the programs, over an incremental check.

`rt ci` pays a check of the whole crate for each edit of crates/NAME/must-fail. So the edits of these crates stand in tests/edits/CRATE, in the same
form (refused.py), and are tried here in a copy of what they need, as many at once as don't touch the same function:
each changes bodies only, and a function is proved from its own body and its callees' contracts, so no edit can hide another. Only where a function waits for
the proof of one that it calls does the check leave its open goals untried; an edit that was not refused for that is tried again without the edits of what it calls.
A check has to refuse the functions of each edit, each in its own proof and at its promise, and none that no edit touches; what rests on one of these is not counted.
An edit that was refused because the proof file does not fit the edited code fails. So does a public function with fewer than two edits, or with none that is
refused at `returns`.

`rt check` begins with what earlier checks of the same crates on this machine kept; where there is nothing, all is proved here first. Ends with
'N passed, M failed'; exit status 0 only if M is 0.
"""
import glob
import os
import shutil
import subprocess
import sys
import tempfile
import time

sys.dont_write_bytecode = True
sys.path.insert(0, os.path.join(os.path.dirname(os.path.abspath(__file__)), "..", "shared"))
import refused  # noqa: E402
from places import ROOT  # noqa: E402
from tally import count, fail, finish  # noqa: E402

CRATES = ["answers", "ascii", "hashing", "builtins", "container", "numerals", "matching", "expression", "lines", "expander", "sheet", "quenhovach"]


def needs_of(crates):
    """All of this repository that some crates need, and these themselves, as crates.txt has them: {NAME: its line}."""
    lines = [line for line in open(os.path.join(ROOT, "crates.txt")).read().splitlines() if line and not line.startswith("#")]
    listed, found, ahead = {line.split(":")[0].split()[0]: line for line in lines}, {}, list(crates)
    while ahead:
        name = ahead.pop()
        if name in listed and name not in found:
            found[name] = listed[name]
            ahead += listed[name].split(":")[1].split()
    return found


def copy_tree(to, crates):
    """What some crates need, in another folder: the sources and proofs."""
    needed = needs_of(crates)
    with open(os.path.join(to, "crates.txt"), "w") as f:
        f.write("\n".join(needed.values()) + "\n")
    for name in needed:
        shutil.copytree(os.path.join(ROOT, "crates", name), os.path.join(to, "crates", name), ignore=shutil.ignore_patterns("out", "must-fail"))


def check(tree, crate):
    """The exit status and all that the check said."""
    run = subprocess.run(["rt", "check"], cwd=os.path.join(tree, "crates", crate), capture_output=True, text=True, errors="replace")
    return run.returncode, run.stdout + run.stderr


def changed(places):
    """The functions that an edit changes."""
    return {function for _, _, _, _, function in places}


def rounds_of(edits, apart):
    """The edits in rounds, of which none has two that must be apart."""
    rounds = []
    for edit in edits:
        for tried in rounds:
            if not any(apart(edit, other) for other in tried):
                tried.append(edit)
                break
        else:
            rounds.append([edit])
    return rounds


def read(path):
    with open(path, encoding="utf-8") as f:
        return f.read()


def write(path, text):
    with open(path, "w", encoding="utf-8") as f:
        f.write(text)


class Crate:
    """A crate in the copy: its functions, its edits with their places, and where each was refused."""

    def __init__(self, name, tree):
        self.name, self.tree, self.folder = name, tree, os.path.join(tree, "crates", name)
        self.functions = refused.functions_of(self.folder)
        self.edits = sorted(glob.glob(os.path.join(ROOT, "tests", "edits", name, "*.edit")))
        self.faults, self.places, self.where = refused.too_few(self.functions, self.edits), {}, {}
        for edit in self.edits:
            found, fault = refused.places_of(edit, self.folder, self.functions)
            if fault:
                self.faults.append("%s: %s" % (os.path.basename(edit), fault))
            else:
                self.places[edit] = found
        calls = refused.calls_of(self.functions)
        self.reached = {edit: refused.reached_from(changed(places), calls) for edit, places in self.places.items()}

    def homes(self, edit):
        """Where the proofs of the functions stand that an edit changes."""
        return {self.functions[f].home for f in changed(self.places[edit])}

    def apply(self, edits):
        """Puts edits in, their names of goals in the proofs too; gives the texts of the files as they were."""
        places = [place for edit in edits for place in self.places[edit]]
        kept = {path: read(path) for path, _, _, _, _ in places}
        for path, text in kept.items():
            for _, at, old, new, _ in sorted((p for p in places if p[0] == path), reverse=True):
                text = text[:at] + new + text[at + len(old) :]
            write(path, text)
        for edit in edits:
            for home in self.homes(edit) if refused.renamed_by(edit) else ():
                for path in glob.glob(os.path.join(glob.escape(os.path.join(self.folder, "proofs", home)), "*.antt")):
                    kept.setdefault(path, read(path))
                    write(path, refused.with_names(read(path), refused.renamed_by(edit)))
        return kept

    def overlap(self, edit, other):
        """Whether two edits touch the same function."""
        return bool(self.homes(edit) & self.homes(other))

    def meet(self, edit, other):
        """Whether one edit touches what the functions of the other call, by whatever way."""
        return bool(self.reached[edit] & changed(self.places[other]) or self.reached[other] & changed(self.places[edit]))

    def try_round(self, edits, is_last):
        """Counts the edits of a round that pass, and those that do not; notes where each was refused. Gives those that have to be tried again."""
        began = time.time()
        kept = self.apply(edits)
        status, said = check(self.tree, self.name)
        print("%s with %d edits (%d s)" % (self.name, len(edits), time.time() - began), flush=True)
        if os.environ.get("KEEP_SAID"):
            open(os.path.join(os.environ["KEEP_SAID"], "%s-%d.log" % (self.name, time.time())), "w").write("\n".join(edits) + "\n" + said)
        found = refused.refusals(said, self.folder)
        for path, text in kept.items():
            write(path, text)
        if status != 1 or "logic=not-proved" not in said:
            print("NOT REFUSED, or it did not reach the prover (exit status %d): %s" % (status, said[-2000:]))
            count(0, len(edits))
            return []
        again = []
        for edit in edits:
            fault, where = refused.fault_of(self.homes(edit), found)
            if not where and not is_last and any(self.meet(edit, other) for other in edits if other != edit):
                again.append(edit)
                continue
            self.where[edit] = where
            print("%s/%s: %s" % (self.name, os.path.basename(edit), fault or "refused at the promise: " + where), flush=True)
            count(fault is None, fault is not None)
        for name in sorted(set(found).difference(*(self.homes(edit) for edit in edits))):
            fail("%s: refused, and no edit touches it: %s" % (name, found[name][0][:2]))
        return again

    def try_edits(self):
        """Counts the edits of the crate that pass, and those that do not."""
        status, said = check(self.tree, self.name)
        if status:
            fail("%s as it stands is not proved (exit status %d): %s" % (self.name, status, said[-2000:]))
            return
        again = [edit for tried in rounds_of(self.places, self.overlap) for edit in self.try_round(tried, False)]
        for tried in rounds_of(again, self.meet):
            self.try_round(tried, True)
        for fault in self.faults + refused.unwatched(self.functions, self.edits, self.where) + ([] if self.places else ["no edit of it was tried"]):
            fail("%s/%s" % (self.name, fault))


def main():
    crates = sys.argv[1:] or CRATES
    with tempfile.TemporaryDirectory() as tree:
        copy_tree(tree, crates)
        for crate in crates:
            Crate(crate, tree).try_edits()
    finish()


if __name__ == "__main__":
    main()
