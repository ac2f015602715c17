#!/usr/bin/env python3
"""The program `expand` from the outside: both of its streams, byte for byte, and exit status 0. A failed read or write is told, and no answer line follows."""
import os
import subprocess
import sys

sys.dont_write_bytecode = True
sys.path.insert(0, os.path.join(os.path.dirname(os.path.abspath(__file__)), "..", "shared"))
import tally  # noqa: E402
from places import program  # noqa: E402

PROGRAM = program("expand")
UNREAD = b"expand: standard input could not be read\n"
UNWRITTEN = b"expand: the output could not be written\n"


def check(name, got, expected):
    """Standard output, standard error and the exit status, against the first two and 0."""
    tally.check(name, got, (*expected, 0))


def run(text):
    done = subprocess.run([PROGRAM], input=text, capture_output=True)
    return done.stdout, done.stderr, done.returncode


def run_shell(redirection, text=b""):
    """The program with one stream redirected by the shell."""
    done = subprocess.run(["sh", "-c", '"$0" ' + redirection, PROGRAM], input=text, capture_output=True)
    return done.stdout, done.stderr, done.returncode


check("01's third case", run(b"define(`n',`5')n"), (b"5", b"0 8 16 0\n"))
check("empty input", run(b""), (b"", b"0 1 0 0\n"))
check("error text stands before the answer line", run(b"errprint(`a',`b')x"), (b"x", b"a b0 7 18 0\n"))
check("a refusal writes nothing else", run(b"good`'errprint(`e')`bad"), (b"", b"5 5 19 1\n"))
check("02's word that vanished", run(b"the len of the boom"), (b"the len of the boom", b"0 10 19 0\n"))
check("02's include, with nothing to include", run(b"a include(`x')"), (b"", b"15 4 13 0\n"))
check("02's sinclude, with nothing to include", run(b"[sinclude(`x')]ifdef(`include',1,0)include"), (b"[]1include", b"0 15 42 0\n"))
check("02's copydef, another name for define", run(b"copydef(`define',`rig')rig(`a',`b')a"), (b"b", b"0 13 36 0\n"))
check("02's copydef, of what has no definition", run(b"copydef(`x',`y')"), (b"", b"16 4 15 0\n"))
check("m4exit", run(b"a`'m4exit(7)b"), (b"a", b"1 5 12 7\n"))
longest = b"x" * 65536
check("65,536 bytes", run(longest), (longest, b"0 2 65536 0\n"))
check("65,537 bytes", run(longest + b"x"), (b"", b"2 0 0 0\n"))
check("many more bytes", run(longest * 3), (b"", b"2 0 0 0\n"))
slow = subprocess.Popen([PROGRAM], stdin=subprocess.PIPE, stdout=subprocess.PIPE, stderr=subprocess.PIPE)
for piece in (b"define(`n',", b"`5", b"')n"):
    slow.stdin.write(piece)
    slow.stdin.flush()
    try:
        slow.wait(0.1)
    except subprocess.TimeoutExpired:
        pass
check("a text that comes in pieces", (*slow.communicate(), slow.returncode), (b"5", b"0 8 16 0\n"))
check("a closed standard output", run_shell(">&-", b"text"), (b"", UNWRITTEN))
check("a closed standard output, and nothing to write", run_shell(">&-", b""), (b"", b"0 1 0 0\n"))
check("a full disk", run_shell(">/dev/full", b"text"), (b"", UNWRITTEN))
check("a directory as standard input", run_shell("</"), (b"", UNREAD))
check("a closed standard input", run_shell("<&-"), (b"", UNREAD))

tally.finish()
