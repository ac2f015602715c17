#!/usr/bin/env python3
"""respell.py: spells this repository's own antt names as today's Rattle does. Run once, at the top, after the kit's port.py.

Definitions, lemmas, fields and constructors come into snake case: camelCase becomes camel_case, a dash inside a lemma's name becomes an underscore, and
stays where it joins the names of two definitions, as in length-drop. Types and modules keep their capitals. Answers to goals, whose names the toolchain
makes, Rust's names, and what stands in quotes stay. It goes over crates/ (.antt, .rt, must-fail edits), tests/edits, tests/mutants and the documents, and
stops before it writes anything where two names would fall together.
"""
import collections
import os
import re
import sys

TOKEN = re.compile(r'"(?:[^"\\\n]|\\.)*"|[^\s(){}\[\],;."`λ⟨⟩/]+')
DECLARED = re.compile(r"^\s*(?:(?:abbrev|unfoldable|pub|data|record) )*([^\s(){}\[\],;.\"λ:]+) :(?: (.*))?$")
HEAD = re.compile(r"^\s*(?:pub )?(?:record|data) ")
CAMEL = re.compile(r"(?<![A-Za-z])[a-z][a-z0-9]*(?:[A-Z][a-z0-9]*)+")
# words of the library that lemmas of ours are named after
LIBRARY = {"length", "take", "drop", "set", "map", "append", "replicate", "get_or", "leb", "ltb", "eqb", "cond", "min", "max", "add", "mul", "sub", "pow"}


def files(top, *folders, ends):
    for folder in folders:
        for at, dirs, names in os.walk(os.path.join(top, folder)):
            dirs[:] = sorted(d for d in dirs if d not in ("out", "target", ".git"))
            for name in sorted(names):
                if name.endswith(ends):
                    yield os.path.join(at, name)


def snake(word):
    return re.sub(r"([A-Z])", lambda m: "_" + m.group(1).lower(), word)


def uncamel(name):
    """camelCase parts of a name that begin with a small letter, as snake_case."""
    return CAMEL.sub(lambda m: snake(m.group(0)), name)


def declared(top):
    """Own names, with whether each is a field of a record or a constructor, and the names of answers, which stay."""
    names, fields, definitions, answers, tokens = set(), set(), set(), set(), collections.Counter()
    for path in files(top, "crates", ends=".antt"):
        spec, inside = "/specs/" in path, None
        for line in open(path, encoding="utf-8"):
            for t in TOKEN.finditer(line):
                if line[t.start() - 1 : t.start()] != ".":
                    tokens[t.group(0)] += 1
            if line.strip() and not line.startswith(" "):
                inside = bool(HEAD.match(line))
            found = DECLARED.match(line.rstrip("\n"))
            if not found:
                continue
            name, of = found.group(1), found.group(2) or ""
            if re.match(r"(?:\(.*\) → )?(?:tie|goal)\.", of):
                answers.add(name)
            else:
                names.add(name)
                if inside and line.startswith(" "):
                    fields.add(name)
                if spec and not line.startswith(" "):
                    definitions.add(name)
    return names, fields, definitions, answers, tokens


def renamed(name, functions):
    new = uncamel(name)
    if "-" in new.strip("-") and re.match(r"[A-Za-z_]", new):
        parts = new.split("-")
        functions = functions if parts[-1] != "spec" else set()
        joined = parts[0]
        for left, right in zip(parts, parts[1:]):
            joined += ("-" if left in functions and right in functions or left[:1].isupper() or not re.match(r"[A-Za-z_]", right or "+") else "_") + right
        new = joined
    return new


def table(top):
    names, fields, definitions, answers, tokens = declared(top)
    functions = {uncamel(d) for d in definitions if "-" not in d} | LIBRARY
    to = {n: renamed(n, functions) for n in sorted(names - answers)}
    to = {n: new for n, new in to.items() if new != n}
    # a lemma that would have its function's name
    for n, new in to.items():
        if "-" in n and (new in to.values() and any(o != n and w == new for o, w in to.items()) or new in definitions):
            to[n] = new + "_lem"
    taken, clash = {}, []
    for n, new in to.items():
        if new in taken or new in tokens and new not in to:
            clash.append((n, new, taken.get(new, "a name that stands")))
        taken[new] = n
    return to, fields, clash


def respelled(text, to, fields, code):
    def word(m):
        t = m.group(0)
        if t not in to or t.startswith('"'):
            return t
        dashed, before = "-" in t, text[m.start() - 1 : m.start()]
        if before == "." and not dashed and t == t.lower():
            return t
        if dashed and (before == "." and t not in fields or code and not (before in "{ (`" or m.start() == 0)):
            return t
        return to[t]

    return TOKEN.sub(word, text)


def main():
    top = os.getcwd()
    to, fields, clash = table(top)
    keep = {}
    for line in open(os.path.join(os.path.dirname(os.path.abspath(__file__)), "respell.txt"), encoding="utf-8"):
        if line.strip() and not line.startswith("#"):
            old, new = line.split()
            keep[old] = new
    to.update(keep)
    to = {n: new for n, new in to.items() if n != new}
    bad = [c for c in clash if c[0] not in keep]
    if bad:
        sys.exit("\n".join("%s would be %s, as %s" % c for c in bad))
    changed = 0
    for path in files(top, "crates", "tests/edits", "tests/mutants", ends=(".antt", ".rt", ".edit")):
        text = open(path, encoding="utf-8").read()
        new = respelled(text, to, fields, not path.endswith(".antt"))
        if new != text:
            changed += 1
            open(path, "w", encoding="utf-8").write(new)
    for path in files(top, "docs", ends=".md"):
        changed += documents(path, to)
    for name in ("README.md", "CHANGELOG.md"):
        changed += documents(os.path.join(top, name), to)
    print("%d names, %d files" % (len(to), changed))


def documents(path, to):
    """Names in backticks."""
    text = open(path, encoding="utf-8").read()
    new = re.sub(r"`[^`\n]+`", lambda m: TOKEN.sub(lambda w: to.get(w.group(0), w.group(0)), m.group(0)), text)
    if new != text:
        open(path, "w", encoding="utf-8").write(new)
    return new != text


if __name__ == "__main__":
    main()
