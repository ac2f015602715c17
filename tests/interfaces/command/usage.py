"""The command line, the help and the manual page."""
import os
import re
import shutil
import subprocess

from common import CRATE, FIVE, get, put, run
from places import ROOT
from tally import check

MANUAL = os.path.join(ROOT, "docs", "quenhovach.1")


# What is wrong with the options, word for word.
COMPLAINTS = [
    (["-help"], "unknown option -help; did you mean --help?"),
    (["-version"], "unknown option -version; did you mean --version?"),
    (["-report=a"], "unknown option -report; did you mean --report?"),
    (["-output", "a"], "unknown option -output; did you mean --output?"),
    (["-Vx"], "-V takes nothing behind it"),
    (["-hV"], "-h takes nothing behind it"),
    (["--help=a"], "--help takes nothing behind it"),
    (["-x"], "unknown option -x"),
    (["--helper"], "unknown option --helper"),
    (["-", "-"], "-: it is given twice; standard input can be read once"),
    (["-", "a", "--", "-"], "-: it is given twice; standard input can be read once"),
    (["-o"], "-o: its value is missing"),
    (["-o", ""], "-o: its value is missing"),
    ([""], "a template's name is empty"),
    (["a", ""], "a template's name is empty"),
    (["--report="], "--report: its value is missing"),
    (["-o", "a", "-o", "b"], "-o: it is given twice"),
    (["-I"], "-I: its value is missing"),
    (["-I", "a", "--set", "b"], "-I and --set: a run has one set, of folders or of a file"),
    (["--set", "a", "--set", "a"], "--set: it is given twice"),
    (["--set", "-"], "--set: it takes a file's name, not -"),
    (["-I", "a", "--write-set", "-"], "--write-set: it takes a file's name, not -"),
    (["--write-set", "a"], "--write-set: it writes the set that -I makes, and no -I is given"),
    (["-set", "a"], "unknown option -set; did you mean --set?"),
    (["-sheet"], "unknown option -sheet; did you mean --sheet?"),
    (["--sheet=a"], "--sheet takes nothing behind it"),
    (["--sheet", "--sheet"], "--sheet: it is given twice"),
    (["-get", "a"], "unknown option -get; did you mean --get?"),
    (["--get"], "--get: its value is missing"),
    (["--get="], "--get: its value is missing"),
    (["--get", "9"], '--get: it takes a name: a letter or underscore, then letters, digits and underscores; "9" is none'),
    (["--get", "a", "--get=a=1"], '--get: it takes a name: a letter or underscore, then letters, digits and underscores; "a=1" is none'),
    (["--get", "a", "-o", "-"], "-o - and --get: readings go to standard output; give the sheet a file"),
    (["--output", "a"], "--output: it takes the sheet's length, 0 to 65536; the sheet's file is given with -o"),
]


def usage(folder):
    for options in (
        ["--letter", "a"], ["--report"], ["--budget"], ["--pending", "65537"], ["--wrap=-1"], ["--calls", ""], ["--errors", "1x"], ["--budget", "4294967296"],
        ["--streams", "1", "--streams", "1"], ["--report", "-"], ["-o", "a", "--report", "a"], ["---"],
    ):
        status, out, err = run(options, FIVE, cwd=folder)
        check("bad usage: " + " ".join(options), (status, out, err.startswith(b"quenhovach: "), err.endswith(b"Try 'quenhovach --help'.\n")), (2, b"", True, True))
    for options, said in COMPLAINTS:
        check("bad usage: " + " ".join(options), run(options, FIVE, cwd=folder), (2, b"", b"quenhovach: %s\nTry 'quenhovach --help'.\n" % said.encode()))
    template = os.path.join(folder, "template")
    put(template, FIVE)
    for option in ("-o", "--report"):
        check("the template as %s" % option, (run([option, os.path.join(folder, ".", "template"), template])[0], get(template)), (2, FIVE))
    os.remove(template)
    check("bad usage writes nothing", os.listdir(folder), [])
    status, out, err = run(["--help"])
    check("help", (status, out.startswith(b"Usage: quenhovach "), err), (0, True, b""))
    check("help on one screen", (len(out.splitlines()) <= 24, max(map(len, out.splitlines())) <= 80), (True, True))
    version = re.search(r'^version = "(.*)"', get(os.path.join(CRATE, "Cargo.toml")).decode(), re.M)[1]
    check("version", run(["-V"]), (0, b"quenhovach " + version.encode() + b"\n", b""))
    manual = get(MANUAL).decode().replace("\\-", "-")
    check("the manual page has every option of the help", [o for o in re.findall(r"(?<![\w/])--?[a-zA-Z][a-zA-Z-]*", out.decode()) if o not in manual], [])
    check("and the version", '"quenhovach %s"' % version in manual, True)
    if not shutil.which("groff"):
        return check("groff is installed and sets the manual page", False, True)
    done = subprocess.run(["groff", "-t", "-man", "-Tascii", "-ww", MANUAL], stdout=subprocess.PIPE, stderr=subprocess.PIPE)
    check("the manual page is set without a warning", (done.returncode, done.stderr, b"EXIT STATUS" in re.sub(b".\b", b"", done.stdout)), (0, b"", True))
