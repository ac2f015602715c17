#!/usr/bin/env python3
"""edits.py [CRATE..]: each edit of crates/NAME/must-fail is refused for its meaning, of all crates or of these.

These are edits of the book's definitions, and name no function; a crate with functions has its edits in tests/edits (incremental_edits.py), and here only
fails if one of its public functions should have none. `rt must-fail` tries them; `rt ci` does too, but lets an edit pass that could not be applied or read. Here
an edit passes only where the prover refused it, and neither for want of a name that the edit took away nor at a limit of its own.
Ends with 'N passed, M failed'; exit status 0 only if M is 0.
"""
import glob
import os
import re
import subprocess
import sys

sys.dont_write_bytecode = True
sys.path.insert(0, os.path.join(os.path.dirname(os.path.abspath(__file__)), "..", "shared"))
import refused  # noqa: E402
from places import ROOT  # noqa: E402
from tally import fail, finish, judge  # noqa: E402

SAID = re.compile(r"^rt: must-fail (\w+/\w+\.edit): (.*)$", re.M)
REFUSED = "refused, as it must be: "


def try_edits(crate, edits):
    """Counts the edits of a crate that pass, and those that do not."""
    run = subprocess.run(["rt", "must-fail", crate], cwd=ROOT, capture_output=True, text=True, errors="replace")
    said = dict(SAID.findall(run.stdout + run.stderr))
    for edit in edits:
        name = "%s/%s" % (crate, os.path.basename(edit))
        told = said.get(name, "it was not tried (exit status %d)" % run.returncode)
        if judge(name, told.startswith(REFUSED), told):
            print("%s: %s" % (name, told), flush=True)


def main():
    for folder in sorted(glob.glob(os.path.join(ROOT, "crates", "*"))):
        crate, edits = os.path.basename(folder), sorted(glob.glob(os.path.join(folder, "must-fail", "*.edit")))
        if sys.argv[1:] and crate not in sys.argv[1:]:
            continue
        if edits:
            try_edits(crate, edits)
        if not os.path.exists(os.path.join(ROOT, "tests", "edits", crate)):
            for fault in refused.too_few(refused.functions_of(folder), []):
                fail("%s/%s" % (crate, fault))
    finish()


if __name__ == "__main__":
    main()
