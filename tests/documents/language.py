#!/usr/bin/env python3
"""Every example of docs/LANGUAGE.md through the command `quenhovach`; and each predefined macro is on the page, with a call of it, and in the manual.

An indented line of the page is a template and what comes of it. A block m4 is a template, called mast.m4; the next block is its sheet, or the message
of its refusal ('...' for lines that are left out), or lines for the shell, whose output is the block text behind them. A block `file NAME` is a file
below the folder common, which the examples behind it in its section may include (-I common). What the page expects was written by hand from document 01
and requests 1, 2, 3, 4 and 7 of 02. Ends with 'N passed, M failed'; exit status 0 only if M is 0.
"""
import collections
import os
import re
import shutil
import subprocess
import sys
import tempfile

sys.dont_write_bytecode = True
sys.path.insert(0, os.path.join(os.path.dirname(os.path.abspath(__file__)), "..", "shared"))
from pages import Given, did, plain, says  # noqa: E402
from places import COMMAND, ROOT, build_command  # noqa: E402
from tally import finish, judge  # noqa: E402

PAGE = os.path.join(ROOT, "docs", "LANGUAGE.md")
MANUAL = os.path.join(ROOT, "docs", "quenhovach.1")
BOOK = os.path.join(ROOT, "crates", "rules", "specs", "Table.antt")
GNU = os.path.join(ROOT, "docs", "GNU.md")
README = os.path.join(ROOT, "README.md")
TEMPLATE = "mast.m4"
COMMON = "common"

# `files` are those that may be included; `kind` is gives, refused, message or sh; `words` is what the page says comes of the template, and for sh the lines
# for the shell with their output
Example = collections.namedtuple("Example", "line section files text kind words")


def read(path):
    with open(path, encoding="utf-8") as f:
        return f.read()


# the page


def pieces():
    """Line, kind and text of each heading (section), macro's entry (entry), indented line (row), and block (its own kind)."""
    lines = enumerate(read(PAGE).splitlines(True), 1)
    for number, line in lines:
        entry = re.match(r"- \*\*`(\w+)", line)
        if line.startswith("```"):
            body = iter(lambda: next(lines)[1], "```\n")
            yield number, line[3:-1], "".join(body)
        elif line.startswith("#"):
            yield number, "section", line.strip("# \n")
        elif entry:
            yield number, "entry", entry[1]
        elif line.startswith("    "):
            yield number, "row", line[4:-1]


def examples():
    section = text = command = None
    files = {}
    for line, kind, body in pieces():
        if kind == "section":
            section, files = body, {}
        elif kind.startswith("file "):
            files = dict(files, **{kind[len("file "):]: body})
        elif kind == "row":
            row = re.fullmatch(r'(.*?) {2,}(?:gives (".*)|(refused .*))', body)
            if judge("line %d" % line, row, "no template with what comes of it"):
                yield Example(line, section, files, plain(row[1]), "gives" if row[2] else "refused", row[2] or row[3])
        elif kind == "m4":
            text = body.encode()
        elif kind == "sh":
            command = body
        elif kind == "text":
            yield Example(line, section, files, text, "sh", (command, body))
        elif kind == "sheet":
            yield Example(line, section, files, text, "gives", (body.encode(), b"", False, 0))
        elif kind == "message":
            yield Example(line, section, files, text, "message", body)


# the command


def furnish(folder, files):
    """The folder common with just these files."""
    shutil.rmtree(os.path.join(folder, COMMON), ignore_errors=True)
    for name, text in files.items():
        path = os.path.join(folder, COMMON, name)
        os.makedirs(os.path.dirname(path), exist_ok=True)
        with open(path, "w", encoding="utf-8") as f:
            f.write(text)


def expand(folder, text, files):
    """What comes of a template, and the message if it is refused."""
    furnish(folder, files)
    with open(os.path.join(folder, TEMPLATE), "wb") as f:
        f.write(text)
    included = ["-I", COMMON] if files else []
    done = subprocess.run([COMMAND, *included, "--report", "numbers", TEMPLATE], cwd=folder, capture_output=True)
    answer = int(read(os.path.join(folder, "numbers")).split()[0])
    if answer < 2:
        return Given(done.stdout, done.stderr, done.returncode, answer=answer), ""
    judge("the exit status of answer %d" % answer, done.returncode == 64 + answer, done.returncode)
    return Given(done.stdout, b"", done.returncode, answer=answer), done.stderr.decode()


def refusal(message, placed):
    """The words of the page for a refusal, from its message: number, name, and line and column if the page has them."""
    numbers = re.search(r"^In numbers: answer (\d+) \((.*)\),", message, re.M)
    place = re.match(r"quenhovach: %s:(\d+:\d+): refused: " % re.escape(TEMPLATE), message)
    words = "refused %s (%s)" % numbers.groups() if numbers else "no refusal"
    return "%s at %s" % (words, place and place[1]) if placed else words


def try_example(folder, example):
    name = "docs/LANGUAGE.md, line %d" % example.line
    given, message = expand(folder, example.text or b"", example.files)
    if example.kind == "gives":
        wanted = says(example.words) if isinstance(example.words, str) else example.words
        judge(name, did(given) == wanted, "%r" % (did(given),))
    elif example.kind == "refused":
        found = refusal(message, " at " in example.words)
        judge(name, (found, given.output) == (example.words, b""), "%s, output %r" % (found, given.output))
    elif example.kind == "message":
        judge(name, re.fullmatch(".*".join(map(re.escape, example.words.split("...\n"))), message, re.S), message)
    else:
        path = os.path.dirname(COMMAND) + os.pathsep + os.environ["PATH"]
        done = subprocess.run(["sh", "-c", example.words[0]], cwd=folder, capture_output=True, env=dict(os.environ, PATH=path))
        judge(name, (done.stdout.decode(), done.stderr, done.returncode) == (example.words[1], b"", 0), "%r" % (done,))


def calls(folder, name, example):
    """Without the macro the template would come to something else: so it is called, and not just named."""
    if example.kind not in ("gives", "refused"):
        return False
    without = b"undefine(`%s')" % name.encode() + example.text
    return did(expand(folder, without, example.files)[0]) != did(expand(folder, example.text, example.files)[0])


# what the page has to have


def predefined():
    """The names in the book of rules."""
    return re.findall(r'bytes_of "(\w+)"', re.search(r"^predefined_names =\n(.*?)\[\]", read(BOOK), re.M | re.S)[1])


def refusals():
    """Number and name of each refusal in the README's table."""
    return ["refused %s (%s)" % row for row in re.findall(r"^\| \d+ \| (\d+) (.*?) \|", read(README), re.M) if int(row[0]) > 1]


def check_blocks():
    blocks = "".join(kind + " " for _, kind, _ in pieces() if kind not in ("section", "entry", "row") and not kind.startswith("file "))
    judge("each block has what comes of it", re.fullmatch(r"(m4 (sheet|message|sh text) |sh text )+", blocks), blocks)


def check_macros(folder, found):
    entries, section = {}, None
    for _, kind, text in pieces():
        if kind == "section":
            section = text
        elif kind == "entry":
            judge("%s has one entry" % text, text not in entries, "it has two")
            entries[text] = section
    judge("the page has each predefined macro", sorted(entries) == sorted(predefined()), sorted(entries))
    judge("and their count", "\n%d names have a meaning from the start" % len(entries) in read(PAGE), len(entries))
    for name, section in entries.items():
        judge("%s has an example" % name, any(e.section == section and calls(folder, name, e) for e in found), "none in its section calls it")


def check_manual():
    section = re.search(r"^\.SH PREDEFINED MACROS\n(.*?)^\.SH ", read(MANUAL), re.M | re.S)
    names = re.findall(r"^(\w+)[^\t\n]*\t", section[1] if section else "", re.M)
    judge("the manual has each predefined macro", sorted(names) == sorted(predefined()), names)


def check_refusals(found):
    shown = {e.words.split(" at ")[0] for e in found if e.kind == "refused"}
    for e in found:
        if e.kind == "sh":
            shown |= {"refused %s (%s)" % numbers for numbers in re.findall(r"^In numbers: answer (\d+) \((.*?)\),", e.words[1], re.M)}
    judge("each refusal of the README is shown", shown == set(refusals()), sorted(shown ^ set(refusals())))


def check_table():
    """The last section of the page points to sections of docs/GNU.md."""
    sections = re.findall(r"^\|.* \| (.*) \|$", read(PAGE).split("\n## Beside GNU m4\n")[1], re.M)[1:]
    judge("the sections of docs/GNU.md are there", sections and all("\n## %s\n" % s in read(GNU) for s in sections), sections)


def main():
    if judge("the command", build_command(), "it could not be built"):
        found = list(examples())
        with tempfile.TemporaryDirectory() as folder:
            for example in found:
                try_example(folder, example)
            check_macros(folder, found)
        check_blocks()
        check_manual()
        check_refusals(found)
        check_table()
    finish()


main()
