#!/usr/bin/env python3
"""rename.py OLD NEW [OLD NEW..] | rename.py --list FILE: renames antt names, as whole words and outside quotes, in crates/ (.antt, .rt, must-fail edits), tests/edits and tests/mutants. It asks nothing of the names: look for clashes first."""
import os
import sys

sys.dont_write_bytecode = True
sys.path.insert(0, os.path.dirname(os.path.abspath(__file__)))
import respell  # noqa: E402


def main():
    words = sys.argv[1:]
    if words[:1] == ["--list"]:
        lines = open(words[1], encoding="utf-8").read().splitlines()
        words = [w for line in lines if line.strip() and not line.startswith("#") for w in line.split()]
    to = dict(zip(words[::2], words[1::2]))
    for path in respell.files(os.getcwd(), "crates", "tests/edits", "tests/mutants", ends=(".antt", ".rt", ".edit")):
        text = open(path, encoding="utf-8").read()
        new = respell.TOKEN.sub(lambda m: m.group(0) if m.group(0).startswith('"') else to.get(m.group(0), m.group(0)), text)
        if new != text:
            open(path, "w", encoding="utf-8").write(new)


main()
