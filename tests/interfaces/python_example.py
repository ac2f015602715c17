#!/usr/bin/env python3
"""The expander from Python: examples/python/quenhovach.py over a shared object that is made of crates/quenhovach/out/libquenhovach.a as its README says.

Every expected answer and byte is written by hand from documents 01 and 02, those of sheets in tests/sheets.tsv, and line and column counted through the text; those of the README's example are in c_example.py and tests/documents/examples.py too.
Ends with 'N passed, M failed'; exit status 0 only if M is 0.
"""
import ast
import contextlib
import dataclasses
import io
import os
import pickle
import re
import struct
import subprocess
import sys
import tempfile
import threading

sys.dont_write_bytecode = True
sys.path.insert(0, os.path.join(os.path.dirname(os.path.abspath(__file__)), "..", "shared"))
from places import ARCHIVE, ROOT  # noqa: E402
from tally import check, finish, stop  # noqa: E402

EXAMPLE = os.path.join(ROOT, "examples", "python")
sys.path.insert(0, EXAMPLE)
import quenhovach  # noqa: E402
from quenhovach import Answer, BadSheet, Buffer, Exited, Expander, Fault, NotDone, Reading, Refused, Report, Sheet, Unclosed  # noqa: E402

OLD = b"\xa5"
N_IS_5 = b"define(`n',`5')n"
RIG = b"copydef(`define',`rig')rig(`a',`b')a"
LEVELS = b"0||1&&0|0^1&1==1<1<<0+1*"  # an operator of each level; before an operand of 1 it comes to 1
ALONE = "import sys; sys.path.insert(0, sys.argv[1]); from quenhovach import *; "
DEEPEST = b"eval(" + (LEVELS + b"(") * 32 + LEVELS + b"1" + b")" * 33

# 01's table of answers, its list of buffers, the three ways to be unclosed; 02's refusals of a sheet and its kinds of readings
NAMES = {
    Answer: (0, "DONE EXIT LEND SPENT ROOM UNCLOSED NAME NUMBER EXPRESSION DIVISOR MARK NO_TEXT GONE DEEP BAD_SET NO_ITEM NO_DEFINITION"),
    Buffer: (1, "PENDING CALLS DEFINITIONS STREAMS WRAP ERRORS OUTPUT"),
    Unclosed: (1, "QUOTE COMMENT CALL"),
    Fault: (20, "MALFORMED TWICE TOO_MANY"),
    Reading: (1, "NUMBER DECIMAL WORD"),
}

JUST = dict(pending=1, calls=8, definitions=2, streams=0, wrap=0, errors=0, output=1, budget=8)

# what is tried, the text, the numbers of the answer, output, error text, and the setting where it is not ample
CALLS = [
    ("the empty text", b"", (0, 0, 1, 0, 0, 0), b"", b"", {"budget": 1}),
    ("n is 5", N_IS_5, (0, 0, 8, 16, 1, 0), b"5", b"", {}),
    ("n is 5, just the room", N_IS_5, (0, 0, 8, 16, 1, 0), b"5", b"", JUST),
    ("any bytes", b"\0\xff\n", (0, 0, 4, 3, 3, 0), b"\0\xff\n", b"", {}),
    ("as much text as may be", b"1" * 65536, (0, 0, 65537, 65536, 65536, 0), b"1" * 65536, b"", {}),
    ("the greatest budget", b"`'", (0, 0, 2, 2, 0, 0), b"", b"", {"budget": 4294967295}),
    ("error text", b"errprint(`w')x", (0, 0, 5, 14, 1, 1), b"x", b"w", {}),
    ("m4exit(3)", b"a`'m4exit(3)b", (1, 3, 5, 12, 1, 0), b"a", b"", {}),
    ("m4exit(0)", b"x m4exit(0)", (1, 0, 5, 11, 2, 0), b"x ", b"", {}),
    ("m4exit(255) and error text", b"errprint(`e')m4exit(255)", (1, 255, 8, 24, 0, 1), b"", b"e", {}),
    ("a text of 65,537 bytes", b"x" * 65537, (2, 0, 0, 0, 0, 0), b"", b"", {}),
    ("a buffer of 65,537 bytes", b"a", (2, 0, 0, 0, 0, 0), b"", b"", {"wrap": 65537, "budget": 0}),
    ("no budget", b"", (3, 0, 0, 0, 0, 0), b"", b"", {"budget": 0}),
    ("a budget of 7 steps", N_IS_5, (3, 0, 7, 16, 0, 0), b"", b"", {"budget": 7}),
    ("no pending text", N_IS_5, (4, 1, 5, 15, 0, 0), b"", b"", {"pending": 0}),
    ("seven bytes of open calls", N_IS_5, (4, 2, 3, 11, 0, 0), b"", b"", {"calls": 7}),
    ("one byte of definitions", N_IS_5, (4, 3, 4, 14, 0, 0), b"", b"", {"definitions": 1}),
    ("one byte of streams", b"divert(1)ab", (4, 4, 3, 9, 0, 0), b"", b"", {"streams": 1}),
    ("one byte of wrap text", b"m4wrap(`zz')", (4, 5, 2, 11, 0, 0), b"", b"", {"wrap": 1}),
    ("one byte of error text", b"errprint(`ww')", (4, 6, 2, 13, 0, 0), b"", b"", {"errors": 1}),
    ("one byte of output", b"ab", (4, 7, 0, 0, 0, 0), b"", b"", {"output": 1}),
    ("an unclosed quote", b"a`b", (5, 1, 1, 1, 0, 0), b"", b"", {}),
    ("an unclosed quote in the third line", b"a\n\n12`b\n", (5, 1, 5, 5, 0, 0), b"", b"", {}),
    ("an unclosed call behind the last newline", b"a\nlen(b\n", (5, 3, 5, 8, 0, 0), b"", b"", {}),
    ("an unclosed call, at the end of the longest text", b"\n" * 65532 + b"len(", (5, 3, 65533, 65536, 0, 0), b"", b"", {}),
    ("a comment that the end of the text closes", b"a#b", (0, 0, 3, 3, 3, 0), b"a#b", b"", {}),
    ("an unclosed comment", b"changecom(%,;)%a", (5, 2, 5, 14, 0, 0), b"", b"", {}),
    ("an unclosed call", b"len(", (5, 3, 1, 4, 0, 0), b"", b"", {}),
    ("no name", b"define(`1a')", (6, 0, 2, 11, 0, 0), b"", b"", {}),
    ("no number", b"incr(x)", (7, 0, 2, 6, 0, 0), b"", b"", {}),
    ("no expression", b"eval(08)", (8, 0, 3, 7, 0, 0), b"", b"", {}),
    ("a zero divisor", b"eval(1/0)", (9, 0, 4, 8, 0, 0), b"", b"", {}),
    ("a shift by 32", b"eval(1<<32)", (9, 0, 6, 10, 0, 0), b"", b"", {}),
    ("letters as marks", b"changequote(a,b)", (10, 0, 4, 15, 0, 0), b"", b"", {}),
    ("defn of a predefined macro", b"defn(`len')", (11, 0, 2, 10, 0, 0), b"", b"", {}),
    ("a definition that goes while its call is open", b"define(`f')f(undefine(`f'))", (12, 0, 7, 26, 0, 0), b"", b"", {}),
    ("65 open calls", b"len(" * 65, (13, 0, 64, 256, 0, 0), b"", b"", {}),
    ("257 arguments", b"len(" + b"," * 256, (13, 0, 256, 259, 0, 0), b"", b"", {}),
    ("no bytes as set", b"a", (14, 0, 0, 0, 0, 0), b"", b"", {"included": b""}),
    ("a set of 1,048,577 bytes", b"a", (14, 0, 0, 0, 0, 0), b"", b"", {"included": b"\0" * 1048577}),
    ("nothing to include", b"\ninclude(a)", (15, 0, 3, 10, 0, 0), b"", b"", {}),
    ("an unknown name", b"include(b)", (15, 0, 2, 9, 0, 0), b"", b"", {"included": {"a": b"xy"}}),
    ("an include", b"include(a)", (0, 0, 5, 10, 2, 0), b"xy", b"", {"included": {"a": b"xy"}, "pending": 2}),
    ("an include by bytes", b"include(a)", (0, 0, 5, 10, 2, 0), b"xy", b"", {"included": b"\x81\1\0\0\0\2\0\0\0\3axy\0"}),
    ("an include that does not fit", b"include(a)", (4, 1, 2, 9, 0, 0), b"", b"", {"included": {"a": b"xy"}, "pending": 1}),
    ("an sinclude of an unknown name", b"sinclude(b)", (0, 0, 4, 11, 0, 0), b"", b"", {"included": {b"a": bytearray(b"xy")}}),
    ("another name for define", RIG, (0, 0, 13, 36, 1, 0), b"b", b"", {"definitions": 5}),
    ("another name for define, a byte less", RIG, (4, 3, 9, 34, 0, 0), b"", b"", {"definitions": 4}),
    ("a copy of a text", b"define(`f',`xyz')copydef(`f',`gg')gg", (0, 0, 13, 36, 3, 0), b"xyz", b"", {"definitions": 9}),
    ("a copy by what is not a name", b"copydef(`x',`9')", (6, 0, 4, 15, 0, 0), b"", b"", {}),
    ("defn of a copy", b"copydef(`len',`l')defn(`l')", (11, 0, 7, 26, 0, 0), b"", b"", {}),
    ("a copy of what has no definition", b"\ncopydef(`x',`y')", (16, 0, 5, 16, 0, 0), b"", b"", {"definitions": 0}),
]


def ended(run, *arguments):
    """What a call came to: its value, or the exception that it raised."""
    try:
        return run(*arguments)
    except Exception as raised:
        return raised


def readme_blocks():
    """The README's lines for the shell, its program, and what that writes."""
    text = open(os.path.join(EXAMPLE, "README.md"), encoding="utf-8").read()
    return [re.sub(r"(?m)^    ", "", block).strip("\n") for block in re.findall(r"(?:^    .*\n(?:\n(?=    ))?)+", text, re.M)]


def build(library):
    command = [line for line in readme_blocks()[0].split("\n") if line.startswith("gcc ")]
    done = subprocess.run(["sh", "-c", command[0].replace("target/libquenhovach.so", library)], cwd=ROOT, capture_output=True, text=True)
    if not check("the shared object is built", (done.returncode, done.stdout + done.stderr), (0, "")):
        finish()


def python(program, *words, **environment):
    """A program without any package: exit status, standard output, standard error. A crash ends it and not the test."""
    command = [sys.executable, "-I", "-S", "-B", "-c", program, *words]
    done = subprocess.run(command, cwd=ROOT, env=dict(os.environ, **environment), capture_output=True, text=True, timeout=60)
    return done.returncode, done.stdout, done.stderr


def names():
    for enum, (first, words) in NAMES.items():
        if not check("the numbers of " + enum.__name__, [(m.name, m.value) for m in enum], [(word, first + i) for i, word in enumerate(words.split())]):
            finish()
    check("every answer is tried", sorted({call[2][0] for call in CALLS}), list(range(17)))
    check("every buffer is tried", sorted({call[2][1] for call in CALLS if call[2][0] == 4}), list(range(1, 8)))


def counted(text, number, place):
    """Line and column of a refusal's place, by counting; none where nothing was read."""
    if number in (2, 14):
        return None, None
    lines = text[:place].split(b"\n")
    return len(lines), len(lines[-1]) + 1


def calls(library):
    """Each answer: what is returned or raised, and every byte of the buffers afterwards."""
    for name, text, numbers, output, errors, setting in CALLS:
        expander = Expander(library=library, **setting)
        lengths = [len(buffer) for buffer in expander.buffers]
        for buffer, length in zip(expander.buffers, lengths):
            buffer.raw = OLD * length
        report = Report(Answer(numbers[0]), *numbers[1:])
        got = ended(expander.run, text)
        if numbers[0] == 0:
            check(name, got, Sheet(output, errors, report))
        elif numbers[0] == 1:
            check(name, (type(got), getattr(got, "sheet", got), getattr(got, "code", got)), (Exited, Sheet(output, errors, report), numbers[1]))
        else:
            check(name, (type(got), getattr(got, "report", got)), (Refused, report))
            check(name + ": line and column", (getattr(got, "line", got), getattr(got, "column", got)), counted(text, numbers[0], numbers[3]))
        working = OLD if numbers[0] == 2 else b"\0"
        left = [working * length for length in lengths[:5]]
        left += [written + OLD * (length - len(written)) for length, written in zip(lengths[5:], (errors, output))]
        check(name + ": buffers", [buffer.raw for buffer in expander.buffers] == left, True)


def sheets(library):
    """The function that gives a sheet's bytes, and what can't be overlooked."""
    expander = Expander(library=library)
    for text in (N_IS_5, bytearray(N_IS_5), memoryview(b"." + N_IS_5)[1:]):
        check("expand of a " + type(text).__name__, quenhovach.expand(text, expander), b"5")
    with contextlib.redirect_stderr(io.StringIO()) as told:
        check("expand with error text", quenhovach.expand(b"errprint(`w\xff')x", expander), b"x")
    check("the error text", told.getvalue(), "w\\xff")
    for text, kind, said in [
        (b"x m4exit(0)", Exited, "m4exit(0) after 2 bytes of output: answer 1 (exit), detail 0, after 5 steps, place 11"),
        (b"errprint(`e')m4exit(255)", Exited,
         "m4exit(255) after 0 bytes of output, error text b'e': answer 1 (exit), detail 255, after 8 steps, place 24"),
        (b"gain\n\n defn(`len')", Refused, "no sheet: answer 11 (no text), detail 0, after 6 steps, place 17 (line 3, column 12)"),
        (b"1" * 65537, Refused, "no sheet: answer 2 (lend), detail 0, after 0 steps, place 0"),
        (b"\ninclude(a)", Refused, "no sheet: answer 15 (no item), detail 0, after 3 steps, place 10 (line 2, column 10)"),
        (b"\ncopydef(`a',`b')", Refused, "no sheet: answer 16 (no definition), detail 0, after 5 steps, place 16 (line 2, column 16)"),
    ]:
        raised = ended(quenhovach.expand, text, expander)
        check("expand of %.30s" % text, (type(raised), isinstance(raised, NotDone), str(raised)), (kind, True, said))
        check("and the exception in another process", ended(lambda: str(pickle.loads(pickle.dumps(raised)))), said)
        status, _, err = python(ALONE + "expand(sys.argv[3].encode(), Expander(library=sys.argv[2]))", EXAMPLE, library, text.decode())
        check("and uncaught", (status, err.splitlines()[-1:]), (1, ["quenhovach.%s: %s" % (kind.__name__, said)]))
    check("a report does not change", type(ended(setattr, Report(Answer.DONE, 0, 1, 0, 0, 0), "detail", 1)), dataclasses.FrozenInstanceError)


def misuse(library):
    for setting, kind in [
        ({"budget": -1}, ValueError), ({"budget": 2**32}, ValueError), ({"output": -1}, ValueError), ({"library": "/nothing/here.so"}, OSError),
    ]:
        check("Expander of %s" % setting, type(ended(lambda: Expander(**dict({"library": library}, **setting)))), kind)
    for text in ("text", 5, None):
        check("a text that is %r" % text, type(ended(Expander(library=library).run, text)), TypeError)


# names and texts, and the set's bytes as 02 has them
SETS = [
    ([], b"\0"),
    ([("", b"")], b"\x81" + bytes(8) + b"\0"),
    ([("a", b"xy"), (b"a", b"")], b"\x81\1\0\0\0\2\0\0\0\3axy" + b"\x81\1\0\0\0\0\0\0\0\1a" + b"\0"),
    ([("\u00e9", b"")], b"\x81\2\0\0\0\0\0\0\0\2\xc3\xa9\0"),
    ([("n", b"x" * 127)], b"\x81\1\0\0\0\x7f\0\0\0\x80n" + b"x" * 127 + b"\0"),
    ([("n", b"x" * 128)], b"\x81\1\0\0\0\x80\0\0\0\x80n" + b"x" * 127 + b"\1x" + b"\0"),
    ([("n" * 129, b"x" * 256)], b"\x81\x81\0\0\0\0\1\0\0\x80" + b"n" * 128 + b"\x80n" + b"x" * 127 + b"\x80" + b"x" * 128 + b"\1x" + b"\0"),
]


def sets(library):
    """The bytes of sets, the first of two items with one name, and a set that would be too long."""
    for items, made in SETS:
        check("the set of %.40r" % items, quenhovach.make_set(items), made)
    twice = Expander(library=library, included=quenhovach.make_set([("a", b"1"), ("a", b"2"), ("b", b"3")]))
    check("the first of two counts", quenhovach.expand(b"include(`a')include(`b')", twice), b"13")
    longest = 1048576 - 9 - 8129 - 1 - 1  # the item's head, a byte for each chunk, the name, the end
    check("the longest set", len(quenhovach.make_set([("a", b"x" * longest)])), 1048576)
    check("a set that is too long", type(ended(quenhovach.make_set, [("a", b"x" * (longest + 1))])), ValueError)
    check("a set of what is no text", type(ended(quenhovach.make_set, [("a", 5)])), TypeError)


BUFFERS = ("pending", "calls", "definitions", "streams", "wrap", "errors", "output")


def table():
    """The lines of tests/sheets.tsv that read a text or expand one; questions are what a dict answers. Gives label, text, the buffers' lengths or none, number, detail and settings."""
    for line in open(os.path.join(ROOT, "tests", "sheets.tsv"), encoding="utf-8"):
        if line.startswith("#") or line.split("\t")[1] == "question":
            continue
        label, function, text, lent, _, number, detail, _, _, output, _, lines = line.split("\t")[:12]
        read = text if function == "read" else output
        lengths = dict(zip(BUFFERS, map(int, lent.split(",")))) if function == "sheet" else None
        yield label, unhex(text), lengths, int(number), int(detail), [setting(unhex(read), field) for field in lines.split(";") if field not in ("[]", "none")]


def unhex(field):
    return b"" if field == "-" else bytes.fromhex(field)


def setting(text, field):
    """A line of the table: name, type and value; of a float its bits."""
    name, kind, value = field.split(" ")
    if kind == "number":
        return part(text, name), int, int(value)
    if kind == "decimal":
        return part(text, name), float, int(value, 16)
    return part(text, name), str, part(text, value)


def part(text, span):
    place, length = map(int, span.split("+"))
    return text[place:place + length].decode()


def seen(settings):
    """The same of a dict."""
    return [(name, type(value), struct.unpack("<Q", struct.pack("<d", value))[0] if isinstance(value, float) else value) for name, value in settings.items()]


def settings(library):
    """Each line of the table, and what can't be overlooked."""
    rows = list(table())
    check("tests/sheets.tsv has lines", (sum(row[2] is None for row in rows) > 25, sum(row[2] is not None for row in rows) > 5), (True, True))
    for label, text, lengths, number, detail, expected in rows:
        if lengths is None:
            got = ended(quenhovach.read_settings, text, library)
        else:
            got = ended(Expander(library=library, **lengths).settings, text)
        name = "settings, %s of %.40r" % (label, text)
        if number == 0:
            check(name, seen(got) if isinstance(got, dict) else got, expected)
        elif number >= 20:
            check(name, (type(got), getattr(got, "fault", got), getattr(got, "line", got)), (BadSheet, Fault(number), detail))
        else:
            report = getattr(got, "report", None)
            check(name, report and (report.number, report.detail), (number, detail))
    expander = Expander(library=library)
    for text, fault, line, bad, said in [
        (b"a=1\nb = 2\nc", 20, 2, b"b = 2", "no settings: line 2 is no setting: b'b = 2'"),
        (b"a=1\n\n", 20, 2, b"", "no settings: line 2 is no setting: b''"),
        (b"a=1\nb=2\na=\xff", 20, 3, b"a=\xff", "no settings: line 3 is no setting: b'a=\\xff'"),
        (b"a=1\nb=2\na=3", 21, 3, b"a=3", "no settings: line 3 gives a setting again: b'a=3'"),
        (b"".join(b"n%d=1\n" % i for i in range(257)), 22, 257, b"n256=1", "no settings: line 257 is one too many: b'n256=1'"),
    ]:
        for name, run in (("read", lambda text: quenhovach.read_settings(text, library)), ("expanded", lambda text: quenhovach.expand_settings(text, expander))):
            got = ended(run, text)
            check("a bad sheet, %s: %.20r" % (name, text), (type(got), got.fault, got.line, got.text, str(got)), (BadSheet, Fault(fault), line, bad, said))
            check("and in another process", str(pickle.loads(pickle.dumps(got))), said)
    with contextlib.redirect_stderr(io.StringIO()) as told:
        check("settings with error text", quenhovach.expand_settings(b"errprint(`w')gain=0.5", expander), {"gain": 0.5})
    check("the error text of settings", told.getvalue(), "w")
    check("settings before m4exit", type(ended(expander.settings, b"gain=0.5\nm4exit(0)")), Exited)
    check("settings of a bytearray", quenhovach.read_settings(bytearray(b"gain=1"), library), {"gain": 1})
    check("settings of a str", type(ended(quenhovach.read_settings, "gain=1", library)), TypeError)
    check("a sheet of 100,000 bytes", quenhovach.read_settings(b"gain=" + b"0" * 99994 + b"7", library), {"gain": 7})


def reuse(library):
    """One run after another in the same buffers, which only a finished one writes to."""
    expander = Expander(library=library, output=6)
    for text, expected, held in [
        (b"......", b"......", b"......"),
        (N_IS_5, b"5", b"5....."),
        (b"12`", 5, b"5....."),
        (b"1234567", 4, b"5....."),
        (b"ab", b"ab", b"ab...."),
        (N_IS_5, b"5", b"5b...."),
    ]:
        got = ended(quenhovach.expand, text, expander)
        check("used again: %s" % text, (got.report.number if isinstance(got, NotDone) else got, expander.buffers[6].raw), (expected, held))


def threads(library):
    """Many runs at once, with an expander each and with a shared one."""
    shared = Expander(library=library)
    for name, expander_of in (("an expander each", lambda: Expander(library=library)), ("a shared expander", lambda: shared)):
        wrong = []

        def work(number):
            expander = expander_of()
            sheet = b"%d" % number * 9000
            for turn in range(100):
                got = ended(expander.run, sheet)
                if got != Sheet(sheet, b"", Report(Answer.DONE, 0, 9001, 9000, 9000, 0)):
                    wrong.append((number, turn, got))

        workers = [threading.Thread(target=work, args=(number,)) for number in range(4)]
        for worker in workers:
            worker.start()
        for worker in workers:
            worker.join()
        check("four threads with " + name, wrong[:1], [])


# A thread of argv[3] bytes of stack, of which all but what a call needs and argv[4] bytes are used up by calls from C.
THREAD = """
import sys, threading
sys.path.insert(0, sys.argv[1])
import quenhovach
sys.setrecursionlimit(20000)
expander = quenhovach.Expander(library=sys.argv[2])
def work():
    if quenhovach.stack_left() > quenhovach.STACK + int(sys.argv[4]):
        return max([0], key=lambda _: work() or 0)
    try:
        print(expander.run(%r).output.decode())
    except RuntimeError as error:
        print(error)
threading.stack_size(int(sys.argv[3]))
thread = threading.Thread(target=work)
thread.start()
thread.join()
""" % DEEPEST
TOO_LITTLE = r"a call needs 1327104 bytes of stack, and this thread has \d+ left; threading.stack_size gives new threads more\n"


def stacks(library):
    """The deepest run there is, in threads with little stack: it is made or refused, and never ends the process."""
    for name, size, spare, said in [
        ("64 KiB", 1 << 16, 0, TOO_LITTLE),
        ("1.25 MiB", 5 << 18, 0, TOO_LITTLE),
        ("1.25 MiB and 64 KiB", (5 << 18) + (1 << 16), 1 << 20, r"1\n"),
        ("1.375 MiB, used up until it is just enough", 11 << 17, 2048, r"1\n"),
        ("1.375 MiB, used up until it is too little", 11 << 17, 0, TOO_LITTLE),
    ]:
        status, out, err = python(THREAD, EXAMPLE, library, str(size), str(spare))
        check("a thread's stack of " + name, (status, re.fullmatch(said, out) is not None, err), (0, True, ""))


def example(library):
    _, program, shown, reader, settings_shown = readme_blocks()
    check("the README's example", python(program.replace("target/libquenhovach.so", library)), (0, shown + "\n", ""))
    check("the README's settings", python(reader.replace("target/libquenhovach.so", library)), (0, settings_shown + "\n", ""))
    spring = open(os.path.join(ROOT, "examples", "frozen", "spring.m4"), "rb").read()
    check("line and column in the README", shown.endswith(", place 1207 (line %d, column %d)" % counted(spring, 5, 1207)), True)
    os.symlink(library, os.path.join(os.path.dirname(library), "libquenhovach.so.0"))
    got = python(ALONE + "print(expand(b'eval(2+3)').decode())", EXAMPLE, LD_LIBRARY_PATH=os.path.dirname(library))
    check("a library that the loader finds", got, (0, "5\n", ""))


def source():
    """Python 3.9 can read it, and every parameter and result has a type."""
    text = open(os.path.join(EXAMPLE, "quenhovach.py"), encoding="utf-8").read()
    tree = ended(lambda: ast.parse(text, feature_version=(3, 9)))
    if not check("Python 3.9 reads it", type(tree), ast.Module):
        return
    untyped = []
    for node in ast.walk(tree):
        if isinstance(node, ast.FunctionDef):
            parameters = node.args.posonlyargs + node.args.args + node.args.kwonlyargs
            untyped += [node.name] if node.returns is None else []
            untyped += [node.name + ", " + p.arg for p in parameters if p.annotation is None and p.arg != "self"]
    check("functions and parameters without a type", untyped, [])


def main():
    if not os.path.exists(ARCHIVE):
        stop("crates/quenhovach/out/libquenhovach.a is missing: `rt lib` in crates/quenhovach writes it")
    names()
    source()
    with tempfile.TemporaryDirectory() as folder:
        library = os.path.join(folder, "libquenhovach.so")
        build(library)
        for part in (calls, sheets, sets, settings, misuse, reuse, threads, stacks, example):
            part(library)
    finish()


main()
