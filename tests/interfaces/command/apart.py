"""No file is used twice where one use writes it, and what leads to a stream is written through it."""
import os
import pty
import socket
import subprocess

from common import FIVE, complained, contents, furnished, get, put, shell
from places import COMMAND
from tally import check


# Two of the run's files are one: a line for the shell, and what the complaint calls the two.
CLASHES = [
    ("-o new --report ./new t.m4", "the sheet (-o new)", "the report (--report ./new)"),
    ("-o dir/../new --report new t.m4", "the sheet (-o dir/../new)", "the report (--report new)"),
    ("-o dir/new --report dirlink/new t.m4", "the sheet (-o dir/new)", "the report (--report dirlink/new)"),
    ("-o newlink --report dirlink/new t.m4", "the sheet (-o newlink)", "the report (--report dirlink/new)"),
    ("-o dir/new --report newlink t.m4", "the sheet (-o dir/new)", "the report (--report newlink)"),
    ("-o old --report oldlink t.m4", "the sheet (-o old)", "the report (--report oldlink)"),
    ("-o pipe --report ./pipe t.m4", "the sheet (-o pipe)", "the report (--report ./pipe)"),
    ("-o t.m4 t.m4", "the template (t.m4)", "the sheet (-o t.m4)"),
    ("-o hard t.m4", "the template (t.m4)", "the sheet (-o hard)"),
    ("-o soft hard", "the template (hard)", "the sheet (-o soft)"),
    ("--report soft t.m4", "the template (t.m4)", "the report (--report soft)"),
    ("-o t.m4 < t.m4", "the template (standard input)", "the sheet (-o t.m4)"),
    ("--report t.m4 < t.m4", "the template (standard input)", "the report (--report t.m4)"),
    ("--report hard < soft", "the template (standard input)", "the report (--report hard)"),
    ("t.m4 >> t.m4", "the template (t.m4)", "the sheet (standard output)"),
    ("< t.m4 >> hard", "the template (standard input)", "the sheet (standard output)"),
    ("< t.m4 1<> t.m4", "the template (standard input)", "the sheet (standard output)"),
    ("-o /dev/stdout t.m4 >> t.m4", "the template (t.m4)", "the sheet (-o /dev/stdout)"),
    ("-o /dev/fd/3 t.m4 3>> t.m4", "the template (t.m4)", "the sheet (-o /dev/fd/3)"),
    ("--report /dev/stdout -o new t.m4 >> t.m4", "the template (t.m4)", "the report (--report /dev/stdout)"),
    ("--report old t.m4 >> old", "the sheet (standard output)", "the report (--report old)"),
    ("--report oldlink t.m4 >> old", "the sheet (standard output)", "the report (--report oldlink)"),
    ("-o /dev/fd/3 --report old t.m4 3>> old", "the sheet (-o /dev/fd/3)", "the report (--report old)"),
    ("-o /dev/fd/3 --report /dev/fd/4 t.m4 3>> old 4>> old", "the sheet (-o /dev/fd/3)", "the report (--report /dev/fd/4)"),
    ("--report /dev/stdout t.m4", "the sheet (standard output)", "the report (--report /dev/stdout)"),
    ("--report /dev/stdout t.m4 >> old", "the sheet (standard output)", "the report (--report /dev/stdout)"),
    ("--report /dev/stdout t.m4 > /dev/null", "the sheet (standard output)", "the report (--report /dev/stdout)"),
    ("--report /dev/fd/1 t.m4", "the sheet (standard output)", "the report (--report /dev/fd/1)"),
    ("--report /proc/self/fd/1 t.m4", "the sheet (standard output)", "the report (--report /proc/self/fd/1)"),
    ("--report out t.m4", "the sheet (standard output)", "the report (--report out)"),
    ("-o out --report /dev/stdout t.m4", "the sheet (-o out)", "the report (--report /dev/stdout)"),
    ("-o /dev/stderr --report /dev/fd/2 t.m4", "the sheet (-o /dev/stderr)", "the report (--report /dev/fd/2)"),
    ("-o old t.m4 >> old", "the sheet (-o old)", "standard output"),
    ("-o old t.m4 < old", "the sheet (-o old)", "standard input"),
    ("-o new --report old t.m4 >> old", "the report (--report old)", "standard output"),
]

# The complaint would go to one of the two.
SPOILT = ["t.m4 2>> t.m4", "< t.m4 2>> hard", "-o old t.m4 2>> old", "-o oldlink t.m4 2>> old", "--report old t.m4 2>> old", "-o t.m4 < t.m4 2>> t.m4"]

# The same file twice, and nothing is lost by it: a line, and what it changes in the folder and gives on standard output and standard error.
HARMLESS = [
    ("t.m4 < t.m4", {}, b"5", b""),
    ("soft < hard", {}, b"5", b""),
    ("-o /dev/null --report /dev/null t.m4", {}, b"", b""),
    ("t.m4 < /dev/null > /dev/null 2> /dev/null", {}, b"", b""),
    ("-o /dev/null t.m4 > /dev/null", {}, b"", b""),
    ("-o dir/new t.m4 0<> old >&0 2>&0", {"dir/new": b"5"}, b"", b""),
    ("-o dir/new t.m4 >> t.m4", {"dir/new": b"5"}, b"", b""),
    ("t.m4 >> old 2>> old", {"old": b"old.5"}, b"", b""),
]


def told_apart(folder):
    untouched = []
    for line, one, other in CLASHES:
        said = "quenhovach: %s and %s are the same file\nTry 'quenhovach --help'.\n" % (one, other)
        untouched.append((line, (2, b"", said.encode())))
    untouched += [(line, (2, b"", b"")) for line in SPOILT]
    for line, expected in untouched:
        place = furnished(folder)
        before = contents(place)
        check("one file: " + line, shell(place, "$q " + line), expected)
        check("then nothing is touched: " + line, contents(place), before)
    place = furnished(folder)
    said = shell(place, "$q -o old t.m4 2> old")
    check("a standard error that the shell has emptied", (said, b"(-o old) and standard error are the same" in get(os.path.join(place, "old"))), ((2, b"", b""), True))
    check("a standard output that the shell has made", (shell(place, "$q --report new t.m4 > new")[0], get(os.path.join(place, "new"))), (2, b""))
    status, out, _ = shell(place, "$q --report /dev/stderr t.m4 2>&1")
    check("sheet and report in one pipe", (status, b"are the same file" in out), (2, True))


def harmless(folder):
    for line, changed, out, err in HARMLESS:
        place = furnished(folder)
        before = contents(place)[1]
        check("no loss: " + line, shell(place, "$q " + line), (0, out, err))
        check("what it leaves: " + line, contents(place)[1], dict(before, **changed))
    ours, theirs = socket.socketpair()
    with ours, theirs:
        ours.sendall(b"errprint(`e')a")
        ours.shutdown(socket.SHUT_WR)
        status = subprocess.run([COMMAND], stdin=theirs, stdout=theirs, stderr=theirs).returncode
        theirs.close()
        check("one socket for all streams", (status, b"".join(iter(lambda: ours.recv(100), b""))), (0, b"ea"))
    ours, theirs = pty.openpty()
    status = subprocess.run([COMMAND, "--report", "/dev/stderr", "t.m4"], cwd=place, stdin=theirs, stdout=theirs, stderr=theirs).returncode
    os.close(theirs)
    check("one terminal for all streams", (status, rest_of(ours)), (0, b"50 0 8 16 1 0\r\n"))
    os.close(ours)


def rest_of(terminal):
    """What was written to a terminal that no one has open any more."""
    shown = b""
    try:
        while True:
            shown += os.read(terminal, 100)
    except OSError:
        return shown


# A line for the shell, the template in t.m4, what stands in the file old behind its text then, and standard output and standard error.
NOTED = b"errprint(`e')x"
THROUGH = [
    ("$q -o /dev/stdout t.m4 >> old", FIVE, b"5", b"", b""),
    ("$q -o /dev/fd/1 t.m4 >> old", FIVE, b"5", b"", b""),
    ("$q -o /proc/self/fd/1 t.m4 >> old", FIVE, b"5", b"", b""),
    ("$q -o /proc/thread-self/fd/1 t.m4 >> old", FIVE, b"5", b"", b""),
    ("$q -o out t.m4 >> old", FIVE, b"5", b"", b""),
    ("$q -o /dev/stderr t.m4 2>> old", NOTED, b"ex", b"", b""),
    ("$q -o /dev/fd/3 t.m4 3>> old", FIVE, b"5", b"", b""),
    ("$q -o /dev/stdout t.m4 >> old", NOTED, b"x", b"", b"e"),
    ("(printf old.; $q -o /dev/stdout t.m4; echo b) > old", FIVE, b"5b\n", b"", b""),
    ("$q -o dir/new --report /dev/stdout t.m4 >> old", FIVE, b"0 0 8 16 1 0\n", b"", b""),
    ("$q -o dir/new --report /dev/stdout t.m4", FIVE, b"", b"0 0 8 16 1 0\n", b""),
    ("$q --report /dev/stderr t.m4 2>> old", NOTED, b"e0 0 5 14 1 1\n", b"x", b""),
    ("$q --report /dev/stderr t.m4", NOTED, b"", b"x", b"e0 0 5 14 1 1\n"),
    ("$q -o /dev/stderr --report /dev/stdout t.m4 >> old", NOTED, b"0 0 5 14 1 1\n", b"", b"ex"),
    ("$q t.m4 >> old 2>&1", NOTED, b"ex", b"", b""),
    ("$q /dev/stdin < t.m4", FIVE, b"", b"5", b""),
    ("(read line; $q /dev/stdin) < t.m4", b"one\ntwo", b"", b"two", b""),
    ("cat t.m4 | $q /dev/fd/0", FIVE, b"", b"5", b""),
]


def written_through(folder):
    here = lambda name: os.path.join(folder, "place", name)
    for line, text, added, out, err in THROUGH:
        place = furnished(folder)
        put(here("t.m4"), text)
        inode = os.stat(here("old")).st_ino
        got = shell(place, line)
        check("through a stream: " + line, (got, get(here("old")), os.stat(here("old")).st_ino), ((0, out, err), b"old." + added, inode))
    place = furnished(folder)
    put(here("t.m4"), b"`")
    status, out, err = shell(place, "$q -o /dev/stdout --report /dev/stderr t.m4 >> old")
    check("a refusal through streams", (status, out, err.endswith(b"\n5 1 0 0 0 0\n"), get(here("old"))), (69, b"", True, b"old."))
    put(here("t.m4"), FIVE)
    for line, words in [
        ("-o /dev/stdout t.m4 >&-", b"/dev/stdout: could not be written: it is closed"),
        ("-o /dev/stdout t.m4 > /dev/full", b"/dev/stdout: could not be written"),
        ("-o /dev/fd/77 t.m4", b"/dev/fd/77: could not be written"),
        ("-o /dev/fd/-1 t.m4", b"/dev/fd/-1: could not be written"),
        ("-o /dev/fd/3 < t.m4", b"/dev/fd/3: could not be written: it is closed"),
        ("-o /dev/fd/3 t.m4 3< old", b"/dev/fd/3: could not be written"),
        ("-o /dev/stdin t.m4 < old", b"/dev/stdin: could not be written"),
        ("/dev/stdin <&-", b"/dev/stdin: could not be read: it is closed"),
        ("-o dir/new --report /dev/stdout t.m4 >&-", b"/dev/stdout: could not be written: it is closed"),
    ]:
        check("a stream that fails: " + line, (complained(shell(place, "$q " + line), words), get(here("old")), os.listdir(here("dir"))), (True, b"old.", []))
