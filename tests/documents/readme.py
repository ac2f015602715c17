#!/usr/bin/env python3
"""readme.py: the README's commands that expand a template, and one that includes others, do what it says, in a copy of what git tracks.

The copy gets what `rt` keeps of each crate in its folder out/, so that nothing is proved twice: `rt` goes by the contents of the files, and would prove a crate
again that differs. Ends with 'N passed, M failed'; exit status 0 only if M is 0.
"""
import glob
import os
import re
import shutil
import subprocess
import sys
import tempfile

sys.dont_write_bytecode = True
sys.path.insert(0, os.path.join(os.path.dirname(os.path.abspath(__file__)), "..", "shared"))
from places import ROOT  # noqa: E402
from tally import finish, judge  # noqa: E402


def section(text, title):
    return re.search(r"^## %s\n(.*?)(?=^## )" % re.escape(title), text, re.M | re.S).group(1)


def blocks(text):
    """The indented blocks of a section."""
    return [re.sub(r"(?m)^    ", "", b).strip("\n") for b in re.findall(r"(?:^    .*\n)+", text, re.M)]


def copy_of_tracked(to):
    names = subprocess.run(["git", "ls-files", "-z"], cwd=ROOT, capture_output=True, check=True).stdout.decode().split("\0")
    for name in filter(None, names):
        os.makedirs(os.path.join(to, os.path.dirname(name)), exist_ok=True)
        shutil.copy2(os.path.join(ROOT, name), os.path.join(to, name))
    for kept in glob.glob(os.path.join(ROOT, "crates", "*", "out")):
        shutil.copytree(kept, os.path.join(to, os.path.relpath(kept, ROOT)))


def main():
    text = open(os.path.join(ROOT, "README.md"), encoding="utf-8").read()
    command, shown = blocks(section(text, "Expand a template"))[:2]
    including = blocks(section(text, "Templates that include templates"))[0]
    sheet, tripod = (open(os.path.join(ROOT, "examples", name + ".sheet"), "rb").read() for name in ("masts/lattice", "families/tripod"))
    with tempfile.TemporaryDirectory() as copy:
        copy_of_tracked(copy)
        run = subprocess.run(["bash", "-c", command], cwd=copy, capture_output=True)
        path = os.path.join(os.environ.get("CARGO_TARGET_DIR", os.path.join(copy, "rust", "target")), "release") + os.pathsep + os.environ["PATH"]
        second = subprocess.run(["bash", "-c", including], cwd=copy, capture_output=True, env=dict(os.environ, PATH=path))
    checks = [
        ("the command ends with exit status 0", run.returncode == 0),
        ("it writes the sheet of examples/masts", run.stdout.endswith(sheet)),
        ("the lines shown are the sheet's first", sheet.decode().startswith(shown + "\n")),
        ("the command that includes writes the sheet of examples/families", (second.returncode, second.stdout) == (0, tripod)),
        ("the command that tests is there", blocks(section(text, "Test it"))[0] == "./test" and os.access(os.path.join(ROOT, "test"), os.X_OK)),
    ]
    if not all([judge(name, good, "no") for name, good in checks]):
        print(run.stdout.decode(errors="replace")[-1500:], run.stderr.decode(errors="replace")[-1500:])
    finish()


main()
