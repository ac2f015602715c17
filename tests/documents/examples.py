#!/usr/bin/env python3
"""Every template of examples/ through the command `quenhovach`, its sheet compared byte for byte with the stored one, which has to be a sheet (--sheet).

Builds the command if need be. GNU m4 has to give the stored sheets too. The last line is 'N passed, M failed'.
"""
import os
import shutil
import subprocess
import sys
import tempfile

sys.dont_write_bytecode = True
sys.path.insert(0, os.path.join(os.path.dirname(os.path.abspath(__file__)), "..", "shared"))
from places import COMMAND, ROOT, build_command  # noqa: E402
from tally import check, finish  # noqa: E402

EXAMPLES = os.path.join(ROOT, "examples")

# Template, exit status, completed steps and place. The sheet is stored beside it, and the error text if there is any. Steps and places were held
# to the independent model, tests/model, which gave the same.
ENDS = {
    "masts/lattice": (0, 1668, 1990),
    "masts/telescopic": (0, 1603, 1890),
    "masts/unknown": (3, 74, 352),
    "idioms/forloop": (0, 934, 572),
    "idioms/foreach": (0, 612, 825),
    "frozen/winter": (0, 13422, 1110),
    "frozen/spring": (0, 17538, 1263),
    "families/tripod": (0, 548, 577),
    "families/trailer": (0, 885, 478),
    "riggers/derrick": (0, 335, 1277),
}
# The folder of what a template includes.
INCLUDED = {"families/tripod": "families/common", "families/trailer": "families/common"}
# Refusals with room 1: template, bytes lent for pending text, completed steps and place; held to the model too.
REFUSED = [
    ("frozen/winter", 3699, 12199, 1055),
    ("frozen/spring", 4096, 13496, 1207),
    ("frozen/spring", 4820, 16009, 1208),
]
ROOM = 64 + 4
OLD = b"the old sheet\n"


def get(path):
    with open(path, "rb") as file:
        return file.read()


def stored(name):
    """Exit status, sheet and error text."""
    path = os.path.join(EXAMPLES, name)
    errors = path + ".errors"
    return ENDS[name][0], get(path + ".sheet"), get(errors) if os.path.exists(errors) else b""


def expand(folder, name, *options):
    """The command on a template where an old sheet stands: exit status, sheet, standard error, the report's numbers."""
    sheet = os.path.join(folder, "sheet")
    numbers = os.path.join(folder, "numbers")
    with open(sheet, "wb") as file:
        file.write(OLD)
    included = ["-I", INCLUDED[name]] if name in INCLUDED else []
    done = subprocess.run([COMMAND, "-o", sheet, "--report", numbers, *included, *options, name + ".m4"], cwd=EXAMPLES, capture_output=True)
    return done.returncode, get(sheet), done.stderr, [int(n) for n in get(numbers).split()]


def whole(folder, name):
    status, sheet, errors, numbers = expand(folder, name)
    check(name, (status, sheet, errors), stored(name))
    check(name + ": steps, place and counts", numbers[2:], [*ENDS[name][1:], len(sheet), len(errors)])


def is_sheet(folder, name):
    """With --sheet the same is written; and nothing where m4exit ended the run."""
    status, sheet, errors, _ = expand(folder, name, "--sheet")
    if stored(name)[0] == 0:
        return check(name + " is a sheet", (status, sheet, errors), stored(name))
    said = stored(name)[2] + b"quenhovach: %s.m4: refused: the run was ended by m4exit(%d)\n" % (name.encode(), status)
    check(name + " is ended by m4exit", (status, sheet, errors.startswith(said)), (stored(name)[0], OLD, True))


def frozen_line(folder):
    """The story of the letter: one guy table more than 4,096 bytes of pushed-back text can take."""
    for name, pending in (("winter", 3700), ("winter", 4096), ("spring", 4821)):
        check("%s in %d bytes" % (name, pending), expand(folder, "frozen/" + name, "--pending", str(pending))[:3], stored("frozen/" + name))
    for name, pending, steps, place in REFUSED:
        status, sheet, errors, numbers = expand(folder, name, "--pending", str(pending))
        check("%s in %d bytes is refused" % (name, pending), (status, numbers), (ROOM, [4, 1, steps, place, 0, 0]))
        check("and the old sheet stands", sheet, OLD)
        words = (name.encode() + b".m4:", b"no room for pending text", b"--pending N")
        check("and the message names file, room and remedy", [w in errors for w in words], [True] * 3)
    check("spring in 65,536 bytes has the line", b"\nsway_frozen=distrust\n" in expand(folder, "frozen/spring")[1], True)


def room_never_shapes(folder, name):
    """In less room a template is refused or gives the very same sheet; both occur."""
    seen = set()
    for pending in (0, 40, 100, 200, 300, 1000, 3699, 3700, 4096, 4820, 4821, 65535):
        status, sheet, errors, numbers = expand(folder, name, "--pending", str(pending))
        refused = numbers[:2] == [4, 1]
        seen.add(refused)
        if refused:
            good = (status, sheet) == (ROOM, OLD)
        else:
            good = (status, sheet, errors) == stored(name)
        check("%s in %d bytes" % (name, pending), good, True)
    check(name + ": refused in some and whole in others", seen, {True, False})


def by_gnu_m4(name):
    """With -G it looks in its own folder alone for what is included, and without it by -I, too. It has no copydef: a template that copies makes one first where there is none."""
    folder = os.path.join(EXAMPLES, INCLUDED.get(name, ""))
    template = os.path.join(EXAMPLES, name + ".m4")
    for how, options, place in (("-G", ["-G"], folder), ("-I", ["-I", folder], EXAMPLES)):
        done = subprocess.run(["m4", *options, template], cwd=place, capture_output=True)
        check("%s by GNU m4 %s" % (name, how), (done.returncode, done.stdout, done.stderr), stored(name))


def included_is_used(folder):
    """What two families share is read for both, and by neither without its folder; a yard's own file is read where there is one."""
    for name in INCLUDED:
        status, sheet, _, _ = expand(folder, name, "-I", "masts")
        check(name + " with a folder more", (status, sheet), (0, stored(name)[1]))
        done = subprocess.run([COMMAND, name + ".m4"], cwd=EXAMPLES, capture_output=True)
        check(name + " without its folder", (done.returncode, done.stdout), (64 + 15, b""))
        with open(os.path.join(folder, "yard.m4"), "wb") as file:
            file.write(b"set(`yard', `north')dnl\n")
        status, sheet, _, _ = expand(folder, name, "-I", folder)
        lines = stored(name)[1].splitlines(True)
        own = [number for number, line in enumerate(lines) if line.startswith(b"sway_")][0]
        check(name + " with a yard's own file", (status, sheet), (0, b"".join(lines[:own] + [b"yard=north\n"] + lines[own:])))
        os.remove(os.path.join(folder, "yard.m4"))
    check("each file of the common folder is included", sorted(os.listdir(os.path.join(EXAMPLES, "families", "common"))), ["sheet.m4", "sway.m4"])


def templates():
    """All templates but those of examples/c, which has a test of its own, and but what is there to be included."""
    found = (os.path.join(folder, file) for folder, _, files in os.walk(EXAMPLES) for file in files if file.endswith(".m4"))
    names = (os.path.relpath(path, EXAMPLES)[:-3] for path in found)
    return sorted(name for name in names if not name.startswith("c/") and os.path.dirname(name) not in INCLUDED.values())


def main():
    check("the command is built", build_command(), True)
    check("every template is tried", templates(), sorted(ENDS))
    with tempfile.TemporaryDirectory() as folder:
        for name in ENDS:
            whole(folder, name)
            is_sheet(folder, name)
            room_never_shapes(folder, name)
        frozen_line(folder)
        included_is_used(folder)
    check("GNU m4 is installed", shutil.which("m4") is not None, True)
    for name in ENDS if shutil.which("m4") else ():
        by_gnu_m4(name)
    finish()


main()
