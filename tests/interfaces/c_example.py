#!/usr/bin/env python3
"""The expander from C and C++: include/quenhovach.h, the archive crates/quenhovach/out/libquenhovach.a, and the programs of examples/c.

Every expected answer and byte is written by hand from documents 01 and 02; tests/sheets.tsv has those of the sheet, tests/lines.tsv those of the index of
lines. Ends with 'N passed, M failed'; exit status 0 only if M is 0.
"""
import os
import re
import subprocess
import sys
import tempfile

sys.dont_write_bytecode = True
sys.path.insert(0, os.path.join(os.path.dirname(os.path.abspath(__file__)), "..", "shared"))
import c_controller  # noqa: E402
import c_lines  # noqa: E402
import c_sheets  # noqa: E402
from places import ARCHIVE, ROOT  # noqa: E402
from tally import check, finish, stop  # noqa: E402

EXAMPLE = os.path.join(ROOT, "examples", "c")
STRICT = ["-Wall", "-Wextra", "-Wpedantic", "-Werror", "-I", os.path.join(ROOT, "include")]
C99 = ["gcc", "-std=c99"] + STRICT
CPP = ["g++", "-std=c++11", "-x", "c++"] + STRICT
OLD = 0xA5

# 01's table of answers, its list of buffers, the three ways to be unclosed, and the order of the numbers; 02's refusals of the sheet and of the
# index of lines, and the kinds of a reading
CONSTANTS = {
    "": (0, "DONE EXIT LEND SPENT ROOM UNCLOSED NAME NUMBER EXPRESSION DIVISOR MARK NO_TEXT GONE DEEP BAD_SET NO_ITEM NO_DEFINITION"),
    "BUFFER_": (1, "PENDING CALLS DEFINITIONS STREAMS WRAP ERRORS OUTPUT"),
    "UNCLOSED_": (1, "QUOTE COMMENT CALL"),
    "REPORT_": (0, "NUMBER DETAIL STEPS PLACE OUTPUT ERRORS LENGTH"),
    "SHEET_": (20, "MALFORMED TWICE TOO_MANY"),
    "READING_": (1, "NUMBER DECIMAL WORD"),
    "LINES_": (30, "TOO_LONG BEYOND NO_LINE NO_ROOM"),
}
EXPORTED = ["quenhovach_expand", "quenhovach_lines_build", "quenhovach_lines_line_of", "quenhovach_lines_start_of",
            "quenhovach_sheet_expand", "quenhovach_sheet_find", "quenhovach_sheet_read"]

# A call as the command line says: seven lengths ("-": length 0, and null for a pointer), a budget, the text's length and the set's ("-" again);
# text and set are on standard input. Writes what came back, the report, and then all that the buffers hold.
CALLER = r"""
#include "quenhovach.h"
#include <stdio.h>
#include <stdlib.h>
#include <string.h>

static uint8_t memory[8][QUENHOVACH_MAX_LENGTH + 1];
static uint8_t set[QUENHOVACH_MAX_SET_LENGTH + 1];

static size_t length_of(const char *word) { return strcmp(word, "-") == 0 ? 0 : (size_t)strtoul(word, NULL, 10); }
static uint8_t *part(int i, const char *word) { return strcmp(word, "-") == 0 ? NULL : memory[i]; }

int main(int argc, char **argv)
{
    uint32_t report[QUENHOVACH_REPORT_LENGTH];
    uint32_t number;
    uint8_t *b[8];
    size_t n[8];
    size_t read;
    int i;

    if (argc != 11)
        return 2;
    memset(memory, OLD, sizeof memory);
    memset(report, OLD, sizeof report);
    for (i = 0; i < 7; i++) {
        b[i] = part(i, argv[1 + i]);
        n[i] = length_of(argv[1 + i]);
    }
    b[7] = part(7, argv[9]);
    n[7] = length_of(argv[9]);
    read = b[7] == NULL ? 0 : fread(b[7], 1, n[7], stdin);
    if (read != n[7] || fread(set, 1, length_of(argv[10]), stdin) != length_of(argv[10]))
        return 3;
    number = quenhovach_expand(b[7], n[7], strcmp(argv[10], "-") == 0 ? NULL : set, length_of(argv[10]), b[0], n[0], b[1], n[1], b[2], n[2], b[3], n[3], b[4], n[4], b[5], n[5], b[6], n[6],
                               (uint32_t)strtoul(argv[8], NULL, 10), report);
    printf("%lu", (unsigned long)number);
    for (i = 0; i < QUENHOVACH_REPORT_LENGTH; i++)
        printf(" %lu", (unsigned long)report[i]);
    printf("\n");
    fwrite(memory, 1, 7 * sizeof memory[0], stdout);
    return 0;
}
""".replace("OLD", str(OLD))

AMPLE = 65536
N_IS_5 = b"define(`n',`5')n"
NO_ITEMS = b"\0"
RIG = b"copydef(`define',`rig')rig(`a',`b')a"
AXY = b"\x81\1\0\0\0\2\0\0\0\3axy\0"  # one item: its name is a, its text xy

# what is tried, the text, the numbers of the answer, output, error text, and the setting where it is not ample
CALLS = [
    ("null and length 0 everywhere, budget 0", None, (3, 0, 0, 0, 0, 0), b"", b"", {"lengths": ["-"] * 7, "budget": 0}),
    ("null and length 0 everywhere, budget 1", None, (0, 0, 1, 0, 0, 0), b"", b"", {"lengths": ["-"] * 7, "budget": 1}),
    ("n is 5", N_IS_5, (0, 0, 8, 16, 1, 0), b"5", b"", {}),
    ("n is 5, just the room", N_IS_5, (0, 0, 8, 16, 1, 0), b"5", b"", {"lengths": [1, 8, 2, "-", 0, "-", 1]}),
    ("n is 5, no pending text", N_IS_5, (4, 1, 5, 15, 0, 0), b"", b"", {"lengths": [0, 8, 2, 9, 9, 9, 9]}),
    ("n is 5, seven bytes of open calls", N_IS_5, (4, 2, 3, 11, 0, 0), b"", b"", {"lengths": [1, 7, 2, 9, 9, 9, 9]}),
    ("n is 5, a budget of 7 steps", N_IS_5, (3, 0, 7, 16, 0, 0), b"", b"", {"budget": 7}),
    ("nested quotes", b"`a `b' c'", (0, 0, 2, 9, 7, 0), b"a `b' c", b"", {}),
    ("error text", b"errprint(`w')x", (0, 0, 5, 14, 1, 1), b"x", b"w", {}),
    ("m4exit", b"m4exit(3)a", (1, 3, 3, 9, 0, 0), b"", b"", {}),
    ("a text of 65,537 bytes", b"x" * 65537, (2, 0, 0, 0, 0, 0), b"", b"", {}),
    ("a buffer of 65,537 bytes", b"a", (2, 0, 0, 0, 0, 0), b"", b"", {"lengths": [9, 9, 9, 65537, 9, 9, 9], "budget": 0}),
    ("an unclosed quote", b"a`b", (5, 1, 1, 1, 0, 0), b"", b"", {}),
    ("a comment that the end of the text closes", b"a#b", (0, 0, 3, 3, 3, 0), b"a#b", b"", {}),
    ("an unclosed comment", b"changecom(%,;)%a", (5, 2, 5, 14, 0, 0), b"", b"", {}),
    ("an unclosed call", b"len(", (5, 3, 1, 4, 0, 0), b"", b"", {}),
    ("no name", b"define(`1a')", (6, 0, 2, 11, 0, 0), b"", b"", {}),
    ("too large a number", b"incr(2147483647)", (7, 0, 11, 15, 0, 0), b"", b"", {}),
    ("no expression", b"eval(08)", (8, 0, 3, 7, 0, 0), b"", b"", {}),
    ("a zero divisor", b"eval(1/0)", (9, 0, 4, 8, 0, 0), b"", b"", {}),
    ("letters as marks", b"changequote(a,b)", (10, 0, 4, 15, 0, 0), b"", b"", {}),
    ("defn of a predefined macro", b"defn(`len')", (11, 0, 2, 10, 0, 0), b"", b"", {}),
    ("a definition that goes while its call is open", b"define(`f')f(undefine(`f'))", (12, 0, 7, 26, 0, 0), b"", b"", {}),
    ("65 open calls", b"len(" * 65, (13, 0, 64, 256, 0, 0), b"", b"", {}),
    ("null and length 0 as set", b"a", (14, 0, 0, 0, 0, 0), b"", b"", {"set": None}),
    ("a set without its end", b"a", (14, 0, 0, 0, 0, 0), b"", b"", {"set": AXY[:-1], "budget": 0}),
    ("a set of 1,048,577 bytes", b"a", (14, 0, 0, 0, 0, 0), b"", b"", {"set": b"\0" * 1048577}),
    ("a bad set and a buffer of 65,537 bytes", b"a", (2, 0, 0, 0, 0, 0), b"", b"", {"set": None, "lengths": [9, 9, 9, 9, 9, 9, 65537]}),
    ("an include of what is not there", b"include(b)", (15, 0, 2, 9, 0, 0), b"", b"", {"set": AXY}),
    ("an include", b"include(a)", (0, 0, 5, 10, 2, 0), b"xy", b"", {"set": AXY, "lengths": [2, 8, "-", "-", "-", "-", 2]}),
    ("an include that does not fit", b"include(a)", (4, 1, 2, 9, 0, 0), b"", b"", {"set": AXY, "lengths": [1, 8, 9, 9, 9, 9, 9]}),
    ("an sinclude of what is not there", b"sinclude(b)", (0, 0, 4, 11, 0, 0), b"", b"", {"set": AXY}),
    ("another name for define, just the room", RIG, (0, 0, 13, 36, 1, 0), b"b", b"", {"lengths": [1, 16, 5, "-", "-", "-", 1]}),
    ("another name for define, a byte less", RIG, (4, 3, 9, 34, 0, 0), b"", b"", {"lengths": [1, 16, 4, 9, 9, 9, 9]}),
    ("a copy of a text", b"define(`f',`xyz')copydef(`f',`gg')gg", (0, 0, 13, 36, 3, 0), b"xyz", b"", {"lengths": [3, 10, 9, "-", "-", "-", 3]}),
    ("a copy of len without its parenthesis", b"copydef(`len',`l')l l(ab)", (0, 0, 12, 25, 3, 0), b"l 2", b"", {}),
    ("a copy by what is not a name", b"copydef(`x',`9')", (6, 0, 4, 15, 0, 0), b"", b"", {}),
    ("defn of a copy", b"copydef(`len',`l')defn(`l')", (11, 0, 7, 26, 0, 0), b"", b"", {}),
    ("a copy of what has no definition", b"copydef(`x',`y')", (16, 0, 4, 15, 0, 0), b"", b"", {"lengths": [9, 9, 0, 9, 9, 9, 9]}),
]

# what is tried, the template, standard output, what standard error is, and the exit status
PROGRAM_RUNS = [
    ("the empty template", b"", b"", b"", 0),
    ("n is 5", N_IS_5, b"5", b"", 0),
    ("diverted text", b"divert(2)b`'divert(1)a`'divert(0)c", b"cab", b"", 0),
    ("wrap text", b"m4wrap(`z')y", b"yz", b"", 0),
    ("the longest template", b"1" * 65536, b"1" * 65536, b"", 0),
    ("error text", b"errprint(`w')x", b"x", b"w", 0),
    ("m4exit", b"a m4exit(3)b", b"a ", b"", 3),
    ("a template that is too long", b"1" * 65537, b"",
     b"FILE: no sheet: the template is longer than 65,536 bytes (answer 2 0, after 0 steps and 0 bytes)", 1),
    ("an unclosed quote in the third line", b"a\n1\n2`b", b"",
     b"FILE:3:2: no sheet: the template ends inside a quote (answer 5 1, after 5 steps and 5 bytes)", 1),
    ("more than the pending text holds", b"kept\ndefine(`f',`$1$1')f(" + b"x" * 40000 + b")", b"",
     b"FILE:2:40021: no sheet: no room for the pending text (answer 4 1, after 9 steps and 40025 bytes)", 1),
    ("an unclosed call, at the end of the longest template", b"\n" * 65532 + b"len(", b"",
     b"FILE:65533:5: no sheet: the template ends inside a call (answer 5 3, after 65533 steps and 65536 bytes)", 1),
    ("another name for define", b"copydef(`define',`rig')rig(`gain',`7')gain rig", b"7 rig", b"", 0),
    ("a copy of what has no definition", b"x\n copydef(`lem',`l')", b"",
     b"FILE:2:19: no sheet: copydef of a name that has no definition (answer 16 0, after 7 steps and 20 bytes)", 1),
    ("an unclosed call behind the last newline", b"a\nlen(b\n", b"",
     b"FILE:3:1: no sheet: the template ends inside a call (answer 5 3, after 5 steps and 8 bytes)", 1),
]


def build(name, command):
    """A build that must end without a word."""
    done = subprocess.run(command, cwd=ROOT, capture_output=True, text=True)
    return check(name, (done.returncode, done.stdout + done.stderr), (0, ""))


def test_header(folder):
    """The header alone, and each of its constants, in both languages."""
    lines = ["#include <quenhovach.h>"]
    for prefix, (first, names) in CONSTANTS.items():
        for number, name in enumerate(names.split(), first):
            name = "QUENHOVACH_" + prefix + name
            lines.append("typedef char check_%s[%s == %d ? 1 : -1];" % (name, name, number))
    lines.append("typedef char check_longest[QUENHOVACH_MAX_LENGTH == 65536 ? 1 : -1];")
    lines.append("typedef char check_longest_set[QUENHOVACH_MAX_SET_LENGTH == 1048576 ? 1 : -1];")
    lines.append("typedef char check_sheet[QUENHOVACH_SHEET_LINES == 256 && sizeof(quenhovach_line) == 40 && sizeof(quenhovach_sheet) == 1281 * 8 ? 1 : -1];")
    for length, count in (("0", 1), ("63", 1), ("63 + 1", 2), ("QUENHOVACH_MAX_LENGTH", 1025)):
        lines.append("typedef char check_words_%d_%d[QUENHOVACH_LINES_WORDS(%s) == %d ? 1 : -1];" % (len(lines), count, length, count))
    source = os.path.join(folder, "header.c")
    with open(source, "w") as f:
        f.write("\n".join(lines) + "\n")
    for language in (C99, CPP, ["gcc", "-std=c11"] + STRICT, ["g++", "-std=c++17", "-x", "c++"] + STRICT):
        build("the header, " + language[1], language + ["-fsyntax-only", source])


def test_archive():
    """It exports the functions of the header, asks the host for memcpy and memset alone, as the header says, and has no state: no writable data."""
    symbols = subprocess.run(["nm", ARCHIVE], capture_output=True, text=True, check=True).stdout
    kinds = re.findall(r"^[0-9a-f ]{16} (\S) (.+)$", symbols, re.M)
    check("what the archive exports", [name for kind, name in kinds if kind in "TDBRVWCu"], EXPORTED)
    asked = {name for kind, name in kinds if kind == "U"}
    check("what the archive asks for", asked - {"memcpy", "memset"}, set())
    sizes = subprocess.run(["size", ARCHIVE], capture_output=True, text=True, check=True).stdout.split("\n")[1].split()
    check("writable data of the archive", sizes[1:3], ["0", "0"])


def left(number, lengths, output, errors):
    """What the seven buffers hold afterwards, each with the bytes behind its length: 01, "Every answer returns ..."."""
    whole = AMPLE + 1
    after = []
    for length in lengths[:5]:
        zeros = 0 if number == 2 else length
        after.append(b"\0" * zeros + bytes([OLD]) * (whole - zeros))
    for text in (errors, output):
        after.append(text + bytes([OLD]) * (whole - len(text)))
    return b"".join(after)


def callers(folder, name, text):
    """A program of this text as C and as C++, linked with the archive: the language and the program, of each that could be built."""
    source = os.path.join(folder, name + ".c")
    with open(source, "w") as f:
        f.write(text)
    for language in (C99, CPP):
        caller = os.path.join(folder, name + "-" + language[0])
        compiled = build("%s, %s" % (name, language[1]), language + ["-O1", "-c", source, "-o", caller + ".o"])
        if compiled and build("%s with the archive, %s" % (name, language[1]), [language[0], caller + ".o", ARCHIVE, "-o", caller]):
            yield language, caller


def test_calls(folder):
    """Each call through the header, as C and as C++: what is returned, the report, and every byte of the buffers."""
    for language, caller in callers(folder, "caller", CALLER):
        for name, text, numbers, output, errors, setting in CALLS:
            lengths = setting.get("lengths", [AMPLE] * 7)
            given = ["-" if part is None else len(part) for part in (text, setting.get("set", NO_ITEMS))]
            words = [str(w) for w in lengths + [setting.get("budget", 16777216)] + given]
            done = subprocess.run([caller] + words, input=(text or b"") + (setting.get("set", NO_ITEMS) or b""), capture_output=True)
            line, _, memory = done.stdout.partition(b"\n")
            told = " ".join(str(n) for n in numbers[:1] + numbers).encode()
            name = "%s, %s" % (name, language[1])
            check(name, (done.returncode, line), (0, told))
            check(name + ": buffers", memory == left(numbers[0], [0 if x == "-" else x for x in lengths], output, errors), True)


def test_lines(folder):
    """Each line of tests/lines.tsv through the header, as C and as C++."""
    cases = list(c_lines.cases())
    check("tests/lines.tsv has lines", len(cases) > 30, True)
    test_table(folder, "caller-of-lines", c_lines.CALLER, cases)


def test_sheets(folder):
    """Each line of tests/sheets.tsv through the header, as C and as C++."""
    cases = list(c_sheets.cases())
    check("tests/sheets.tsv has lines", len(cases) > 40, True)
    test_table(folder, "caller-of-sheets", c_sheets.CALLER, cases)


def test_table(folder, program, source, cases):
    for language, caller in callers(folder, program, source):
        for name, words, text, told in cases:
            done = subprocess.run([caller] + words, input=text, capture_output=True)
            check("%s, %s" % (name, language[1]), (done.returncode, done.stdout), (0, told))


def test_includes(program, shown):
    """The README's template that includes, with the file and without; then sets at the borders of chunks and of what a set may have."""
    sheet = "mast guyed\nfilter_gain 9\nfrozen_after_ms 80\n"
    told = "expand_file: examples/c/guyed.m4:1:19: no sheet: include of a file that is not named on the command line (answer 15 0, after 2 steps and 18 bytes)\n"
    for line, output, said, expected in zip(shown[::2], shown[1::2], ("with it", "without it"), ((sheet, "", 0), ("", told, 1))):
        done = subprocess.run(line.replace("target/expand_file", program).split(), cwd=ROOT, capture_output=True, text=True)
        check("an include in the README, " + said, (done.stdout, done.stderr, done.returncode), expected)
        check("and what the README shows, " + said, output, "".join(expected[:2]))
    check("both are in the README", len(shown), 4)
    with tempfile.TemporaryDirectory() as folder:
        template, part, more = (os.path.join(folder, name) for name in ("t.m4", "part", "more"))
        files = {template: b"include(part)[sinclude(`more')]sinclude(`none')", more: b""}
        for length in (0, 1, 123, 124, 125, 251, 252, 253, 40000):
            files[part] = b"%" * length
            for path, text in files.items():
                with open(path, "wb") as f:
                    f.write(text)
            done = subprocess.run([program, template, more, part], capture_output=True)
            check("an include of %d bytes" % length, (done.stdout, done.stderr, done.returncode), (files[part] + b"[]", b"", 0))
        # A name of 4 bytes: an item takes 9 bytes, a byte for each 128 of name and text, and these; the end takes one.
        for length, status in ((1048576 - 9 - 8129 - 4 - 1, 0), (1048576 - 9 - 8129 - 4, 1)):
            with open(part, "wb") as f:
                f.write(b"%" * length)
            with open(template, "wb") as f:
                f.write(b"x")
            done = subprocess.run([program, template, part], capture_output=True)
            told = b"expand_file: %s: the files to include have too many bytes\n" % part.encode() if status else b""
            check("a set of 1,048,576 bytes and %d" % status, (done.stdout, done.stderr, done.returncode), (b"x" * (1 - status), told, status))
        done = subprocess.run([program, template, "nothing-here"], cwd=folder, capture_output=True)
        check("an included file that is not there", (done.stdout, done.stderr, done.returncode), (b"", b"expand_file: nothing-here: the file could not be read\n", 1))


def test_program(folder):
    """The program expand_file of examples/c, built as its README says."""
    readme = open(os.path.join(EXAMPLE, "README.md"), encoding="utf-8").read()
    command = re.search(r"^    (gcc .*)$", readme, re.M).group(1)
    program = os.path.join(folder, "expand_file")
    if not build("the program", command.replace("target/expand_file", program).split()):
        return
    template = os.path.join(folder, "template.m4")
    for name, text, output, errors, status in PROGRAM_RUNS:
        with open(template, "wb") as f:
            f.write(text)
        done = subprocess.run([program, template], capture_output=True)
        if status == 1:
            errors = b"expand_file: " + errors.replace(b"FILE", template.encode()) + b"\n"
        check("the program: " + name, (done.stdout, done.stderr, done.returncode), (output, errors, status))
    done = subprocess.run([program, os.path.join(EXAMPLE, "mast.m4")], capture_output=True)
    sheet = b"mast tall\nfilter_gain 12\nfrozen_after_ms 100\n"
    check("the program: mast.m4", (done.stdout, done.stderr, done.returncode), (sheet, b"", 0))
    shown = c_controller.blocks(readme)
    check("the sheet in the README", shown[1].encode(), sheet)
    done = subprocess.run(["sh", "-c", shown[2].replace("target/", "./")], cwd=folder, capture_output=True, text=True)
    told = "expand_file: target/open.m4:2:6: no sheet: the template ends inside a quote (answer 5 1, after 6 steps and 15 bytes)\n"
    check("the refusal in the README", (done.stdout, done.stderr, done.returncode), ("", told.replace("target/", "./"), 1))
    check("the message in the README", shown[3:4], [told])
    check("and in the one at the root", "\n    " + told in open(os.path.join(ROOT, "README.md"), encoding="utf-8").read(), True)
    test_includes(program, shown[4:8])
    for name, words, redirection, message in [
        ("no file named", "", "", b"usage: expand_file FILE [INCLUDED]...\n"),
        ("a file that is not there", "nothing-here", "", b"expand_file: nothing-here: the file could not be read\n"),
        ("a folder", "/", "", b"expand_file: /: the file could not be read\n"),
        ("a full disk", '"$1"', ">/dev/full", b"expand_file: %s: the sheet could not be written\n" % template.encode()),
    ]:
        with open(template, "wb") as f:
            f.write(N_IS_5)
        done = subprocess.run(["sh", "-c", '"$0" %s %s' % (words, redirection), program, template], cwd=folder, capture_output=True)
        check("the program: " + name, (done.stdout, done.stderr, done.returncode), (b"", message, 1))


def test_controller(folder):
    """The controller of examples/c, built as its README says, and as C++."""
    shown = c_controller.blocks(open(os.path.join(EXAMPLE, "README.md"), encoding="utf-8").read())[8:]
    command, program = shown[0].split("\n")[0], os.path.join(folder, "controller")
    if build("the controller", command.replace("target/controller", program).split()):
        c_controller.try_templates(program, folder)
        c_controller.try_readme(program, folder, ROOT, shown)
    for language in (CPP, ["g++", "-std=c++17", "-x", "c++"] + STRICT):
        build("the controller, " + language[1], language + ["-c", os.path.join(EXAMPLE, "controller.c"), "-o", program + ".o"])


if not os.path.exists(ARCHIVE):
    stop("crates/quenhovach/out/libquenhovach.a is missing: `rt lib` in crates/quenhovach writes it")
with tempfile.TemporaryDirectory() as scratch:
    test_header(scratch)
    test_archive()
    test_calls(scratch)
    test_sheets(scratch)
    test_lines(scratch)
    test_program(scratch)
    test_controller(scratch)
finish()
