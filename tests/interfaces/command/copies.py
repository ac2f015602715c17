"""What is said where a name that copydef was to copy has no definition (answer 16): the name, where the template shows it, and the names like it."""
import os
import re

from common import put, run
from tally import check

# The text, the name that is told, and the names like it.
MISSING = [
    ("copydef(`lem',`l')", "lem", "`len`"),
    ("copydef(lem,`l')", "lem", "`len`"),
    ("copydef(`LEN',`l')", "LEN", "`len`"),
    ("copydef(`len' ,`l')", "len ", "`len`"),
    ("define(`ring',1)copydef(`rings',`r')", "rings", "`ring`"),
    ("define(`guy_1')define(`guy_2')copydef(`guy_3',`g')", "guy_3", "`guy_1`, `guy_2`"),
    ("copydef(`guys',`g')define(`guys',3)", "guys", None),
    ("undefine(`len')copydef(`len',`l')", "len", None),
    ("copydef(`l',`len')", "l", None),
    ("copydef(,`l')", "", None),
    ("copydef(divnum,`d')", None, None),
    ("define(`h',3)copydef(h,`g')", None, None),
    ("copydef(`le'm,`l')", None, None),
    ("define(`f',`copydef(`lem',`l')')f", None, None),
    ("copydef(`copydef',`also')also(`lem',`l')", None, None),
    ("copydef(`%s',`l')" % ("n" * 41), None, None),
]
UNKNOWN = "copydef was given a name to copy that has no definition"
KNOWN = "copydef was given a name to copy, `%s`, that has no definition"


def words(err):
    """The parts of a message by their headings, each on one line."""
    text = re.sub(r"\n  ", " ", err.decode())
    return dict(line.split(": ", 1) for line in text.splitlines() if re.match(r"[A-Z][a-z ]+: ", line))


def missing(folder):
    for text, name, like in MISSING:
        status, out, err = run([], text.encode())
        said = words(err)
        check("no definition: %r" % text, (status, out), (80, b""))
        check("what is told: %r" % text, (said["What happened"], said.get("Like that name")), (UNKNOWN if name is None else KNOWN % name, like))
    os.mkdir(os.path.join(folder, "dir"))
    put(os.path.join(folder, "dir", "a.m4"), b"define(`ring', 1)")
    status, _, err = run(["-I", "dir"], b"include(`a.m4')copydef(`rings', `r')", cwd=folder)
    check("like a name of an included text", (status, words(err).get("Like that name")), (80, "`ring`"))
    put(os.path.join(folder, "dir", "a.m4"), b"one\ncopydef(`rings', `r')\n")
    status, _, err = run(["-I", "dir"], b"include(`a.m4')", cwd=folder)
    said = words(err)
    check("in an included text", (status, said["In included text"].split(",")[0], said["What happened"]), (80, "the refused step ends at dir/a.m4:2:21", UNKNOWN))
