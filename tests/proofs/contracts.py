#!/usr/bin/env python3
"""contracts.py [CRATE..]: nothing that a public function of the leaves promises can be dropped unseen; nor of `sheet`, where that is named.

Not part of the gate: it takes minutes, and `sheet`, which stands on the expander, the time of the expander's proofs besides. For each public function, in a copy
of the tree, its `ensures` clauses are removed, and from its proof the answers of the goals `returns`. Then one of its must-fail edits has to be proved, which
makes incremental_edits.py fail. The callers in the crate whose proofs break besides are listed.
Ends with 'N passed, M failed'; exit status 0 only if M is 0.
"""
import os
import re
import sys
import tempfile

sys.dont_write_bytecode = True
sys.path.insert(0, os.path.join(os.path.dirname(os.path.abspath(__file__)), "..", "shared"))
import incremental_edits as edits  # noqa: E402
import refused  # noqa: E402
from tally import count, fail, finish  # noqa: E402

LEAVES = ["answers", "ascii", "hashing", "builtins", "container", "numerals", "matching", "expression", "lines"]
# a clause goes on over the lines that stand further in
ENSURES = re.compile(r"^( *)ensures .*\n(?:\1 +.*\n|\1\}\n)*", re.M)
RETURNS = re.compile(r"^pub (?:%s-)?returns(?:-\S+)? : .*\n(?:(?!\n|pub |--).*\n)*\n?", re.M)


def without_promise(function, folder):
    """The files of a function without what it promises: {path: text}."""
    text = edits.read(function.path)
    head = text.rindex("fn ", 0, function.start)
    code = text[:head] + ENSURES.sub("", text[head : function.start]) + text[function.start :]
    if code == text:
        sys.exit("%s has no clause 'ensures'" % function.name)
    path = os.path.join(folder, "proofs", function.home, "Answers.antt")
    answers = re.compile(RETURNS.pattern % re.escape(function.name.rpartition("/")[2]), re.M)
    return {function.path: code, **({path: answers.sub("", edits.read(path))} if os.path.exists(path) else {})}


def with_edit(weaker, edit, tree, crate):
    """Where the proofs stand that are refused with an edit in the weaker code."""
    kept = {path: edits.read(path) for path in weaker}
    for path, text in weaker.items():
        edits.write(path, text)
    tried = edits.Crate(crate, tree)
    if edit in tried.places:
        before = tried.apply([edit])
        status, said = edits.check(tree, crate)
        found = refused.refusals(said, tried.folder)
        for path, text in before.items():
            edits.write(path, text)
    for path, text in kept.items():
        edits.write(path, text)
    if edit not in tried.places or status not in (0, 1) or "logic=" not in said:
        sys.exit("%s: %s" % (os.path.basename(edit), tried.faults or said[-2000:]))
    return set(found)


def try_function(function, own, tree, crate):
    """The loss of a promise is seen."""
    for edit in own:
        broken = with_edit(without_promise(function, os.path.join(tree, "crates", crate)), edit, tree, crate)
        if function.home not in broken:
            others = ", ".join(sorted(broken)) or "none"
            print("%s::%s without its promise: %s is proved; callers that break: %s" % (crate, function.name, os.path.basename(edit), others), flush=True)
            return count(1, 0)
    fail("%s::%s without its promise: NOT SEEN, each of its edits is still refused" % (crate, function.name))


def main():
    crates = sys.argv[1:] or LEAVES
    with tempfile.TemporaryDirectory() as tree:
        edits.copy_tree(tree, crates)
        for name in crates:
            edits.check(tree, name)
            crate = edits.Crate(name, tree)
            for function in crate.functions.values():
                if function.public:
                    try_function(function, [e for e in crate.edits if refused.named_by(e) == function.name], tree, name)
    finish()


if __name__ == "__main__":
    main()
