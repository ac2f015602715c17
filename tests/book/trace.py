#!/usr/bin/env python3
"""trace.py [--helpers]: each name in the second column of the tables of docs/TRACE.md is declared in the file that the third column names.

Declarations are, in a .antt file, names with a signature, records, their fields, data types and their constructors, at the top or in a module; in a .rt or .rs file
functions, structs, enums, variants, fields and consts; in a .py file what is defined at its top; in a .md file the headings. A word in a comment or in a body is
none, which is tried first on a small file of each kind. With --helpers it also lists, for a reader's eye, the definitions of crates/rules/specs that no row names.
Ends with 'N passed, M failed'; exit status 0 only if M is 0.
"""
import os
import re
import sys

sys.dont_write_bytecode = True
sys.path.insert(0, os.path.join(os.path.dirname(os.path.abspath(__file__)), "..", "shared"))
from places import ROOT  # noqa: E402
from tally import check, fail, finish, judge  # noqa: E402

PUB = r"(?:pub(?:\(\w+\))? )?"


def declared_antt(text):
    """Signatures stand at the left, or two columns inside a module (or its `where`), a mutual block, a record or a data type; a function's `where` stands further in."""
    names, blocks = set(), []
    for line in re.sub(r"--.*", "", text).split("\n"):
        body = line.strip()
        indent = len(line) - len(line.lstrip())
        if not body:
            continue
        while blocks and blocks[-1] >= indent:
            blocks.pop()
        if indent != (blocks[-1] + 2 if blocks else 0):
            continue
        kind = re.match(r"(?:pub )?(?:record|data) (\S+)", body)
        names.update(kind.groups() if kind else ())
        signature = re.match(r"(?:unfoldable |abbrev )?(?:pub )?([^(){}=:;,]+) :(?: |$)", body)
        names.update(signature.group(1).split() if signature and not kind else ())
        if kind or re.match(r"module |(?:unfoldable )?mutual\b|where$", body):
            blocks.append(indent)
    return names


def declared_rt(text):
    """As `rt fmt` lays it out: an item and a field begin a line, and a variant stands four columns in; the fields of a short variant follow it."""
    text = re.sub(r"//.*", "", text)
    names = set(re.findall(r"^ *%s(?:extern \"C\" )?(?:fn|struct|enum|const) (\w+)" % PUB, text, re.M))
    for kind, body in re.findall(r"^%s(struct|enum) [^\n]*\{\n(.*?)^\}" % PUB, text, re.M | re.S):
        names.update(re.findall(r"(?:^ +|[{,] )%s(\w+): " % PUB, body, re.M))
        names.update(re.findall(r"^    (\w+)", body, re.M) if kind == "enum" else ())
    return names


def declared_py(text):
    return set(re.findall(r"^(?:def |class |(?=\w+ = ))(\w+)", text, re.M))


def declared_md(text):
    return set(re.findall(r"^#+ (.*)$", text, re.M))


DECLARED = {".antt": declared_antt, ".rt": declared_rt, ".rs": declared_rt, ".py": declared_py, ".md": declared_md}

# a file of each kind, and what it declares
SAMPLES = {
    ".antt": (
        "-- said : ℕ\nuse a.{used}\nunfoldable pub f : ℕ\nf = let z : ℕ = g in z\n  where\n    inner : ℕ\n\npub record R (p : ℕ) : Type 0 where\n  pub field : ℕ\n\n"
        "pub data D : Type 0 where\n  one two : D\n\nmodule _ (q : ℕ) where\n  pub law :\n      (t : ℕ) → ℕ\n  law t = helper t\n\n"
        "module _\n    {r : ℕ}\n  where\n    pub deep : ℕ\n    deep = helper r\n      where\n        inmost : ℕ\n",
        {"f", "R", "field", "D", "one", "two", "law", "deep"},
    ),
    ".rt": (
        "// said\nuse rules::Used;\nconst LIMIT: usize = 3;\n\npub struct S {\n    pub field: u8,\n}\n\nenum E {\n    Case,\n    Held(Inner),\n    Placed {\n        end: usize,\n    },\n    Short { n: usize, m: Inner },\n}\n\n"
        "impl S {\n    pub(crate) fn method(self, given: u8) -> u8 {\n        let local: u8 = helper(given);\n        local\n    }\n}\n",
        {"LIMIT", "S", "field", "E", "Case", "Held", "Placed", "end", "Short", "n", "m", "method"},
    ),
    ".rs": ("//! said\nuse crate::Used;\nconst TOP: u8 = 1;\n\n/// said\npub fn f(given: u8) -> u8 {\n    let local = helper(given);\n    local\n}\n", {"TOP", "f"}),
    ".py": ("# said\nimport used\nTOP = 1\n\n\ndef f(given):\n    local = helper(given)\n", {"TOP", "f"}),
    ".md": ("# A page\n\nsaid\n\n## A part of it\n", {"A page", "A part of it"}),
}


def read(path):
    with open(path, encoding="utf-8") as f:
        return f.read()


def rows():
    """Line number and cells of each row of the tables."""
    for number, line in enumerate(read(os.path.join(ROOT, "docs", "TRACE.md")).split("\n"), 1):
        cells = [c.strip() for c in re.split(r"(?<!\\)\|", line.strip().strip("|"))]
        if line.startswith("|") and not cells[0].startswith("---") and cells[-1] != "where":
            yield number, cells


def main():
    cited = {}
    for kind, (text, wanted) in SAMPLES.items():
        check("what the sample %s declares" % kind, sorted(DECLARED[kind](text)), sorted(wanted))
    for number, cells in rows():
        path = os.path.join(ROOT, cells[-1])
        names = re.findall(r"`([^`]+)`", cells[1])
        if len(cells) != 3 or not names or not os.path.exists(path):
            fail("line %d: not three cells, no name in the second, or no file in the third" % number)
            continue
        known = DECLARED.get(os.path.splitext(path)[1], lambda text: ())(read(path))
        cited.setdefault(path, set()).update(names)
        for name in names:
            judge("line %d" % number, name in known, "`%s` is not declared in %s" % (name, cells[2]))
    if not cited:
        fail("docs/TRACE.md has no row")
    for name in sorted(os.listdir(os.path.join(ROOT, "crates", "rules", "specs"))) if "--helpers" in sys.argv[1:] else ():
        path = os.path.join(ROOT, "crates", "rules", "specs", name)
        helpers = [n for n in re.findall(r"^unfoldable pub (\S+) :", read(path), re.M) if n not in cited.get(path, ())]
        if helpers:
            print("helpers in %s: %s" % (name, " ".join(helpers)))
    finish()


main()
