#!/usr/bin/env python3
"""run.py [SEED COUNT] | --store: an independent m4, GNU m4, as the judge of the program `expand`, and of the command `quenhovach`, where both have one rule.

Compared are output, error text and exit number: the templates of tests/gnu/templates and the random texts of tests/gnu/random.jsonl with what GNU m4
gave for them when they were stored, and with what it gives now, as `m4` and as `m4 -G`; then COUNT more random texts (tests/gnu/texts.py,
default 300 from seed 1000). Files are included by the command: it has to give what `m4 -I` gives, and `m4 -G` in their folder, for the templates of
tests/gnu/included and for COUNT random texts cut in pieces (tests/gnu/includes.py). The answer must be done or exit. Every example of docs/GNU.md, where the rules differ, must come out as that page says.
--store writes the stored results anew, by GNU m4 alone. Ends with 'N passed, M failed'; exit status 0 only if M is 0.
"""
import collections
import glob
import json
import os
import re
import resource
import shutil
import subprocess
import sys
import tempfile

sys.dont_write_bytecode = True
FOLDER = os.path.dirname(os.path.abspath(__file__))
sys.path.insert(0, os.path.join(FOLDER, "..", "shared"))
import includes  # noqa: E402
import texts  # noqa: E402
from pages import Given, did, plain, says  # noqa: E402
from places import COMMAND, ROOT, build_command, program  # noqa: E402
from tally import fail, finish, judge, stop  # noqa: E402

PROGRAM = program("expand")
RANDOM = os.path.join(FOLDER, "random.jsonl")
PAGE = os.path.join(ROOT, "docs", "GNU.md")
JUDGES = (["m4"], ["m4", "-G"])
STORED_SEEDS = range(100)


# the two programs


def limited():
    """A text that never ends must not eat the machine: GNU m4 has no limit of its own."""
    resource.setrlimit(resource.RLIMIT_AS, (256 << 20, 256 << 20))
    resource.setrlimit(resource.RLIMIT_CPU, (10, 10))


def run(command, text, folder=None):
    return subprocess.run(command, input=text, capture_output=True, preexec_fn=limited, env=dict(os.environ, LC_ALL="C"), cwd=folder)


def expand(text):
    done = run([PROGRAM], text)
    found = re.search(rb"\A(.*\n)?(\d+) \d+ \d+ (\d+)\n\Z", done.stderr, re.DOTALL)
    if not found:
        return Given(done.stdout, done.stderr, None)
    answer = int(found.group(2))
    return Given(done.stdout, found.group(1) or b"", int(found.group(3)) if answer == 1 else 0, answer=answer)


def quenhovach(folder, text):
    """The command, with what is below a folder to include."""
    with tempfile.TemporaryDirectory() as place:
        numbers = os.path.join(place, "numbers")
        done = run([COMMAND, "-I", folder, "--report", numbers], text)
        return Given(done.stdout, done.stderr, done.returncode, answer=int(read(numbers).split()[0]))


def gnu(command, text, folder=None):
    """GNU m4's own messages start with its name; the error text of a template ends its lines."""
    done = run(command, text, folder)
    lines = done.stderr.splitlines(True)
    own = [line for line in lines if line.startswith(b"m4:")]
    return Given(done.stdout, b"".join(line for line in lines if line not in own), done.returncode, told=bool(own))


def alike(name, given, wanted):
    """Output, error text and exit number are the same."""
    parts = zip(("output", "error text", "exit number"), given, wanted)
    judge(name, given[:3] == wanted[:3], "; ".join("%s is %r, GNU m4 has %r" % part for part in parts if part[1] != part[2]))


def judged(name, given, wanted):
    """Ours gives what GNU m4 gave, by an answer that finishes."""
    if given.answer not in (0, 1):
        return fail("%s: not finished: answer %s, standard error %r" % (name, given.answer, given.errors))
    alike(name, given, wanted)


# templates and random texts, with their stored results


def templates():
    return [path[: -len(".m4")] for path in sorted(glob.glob(os.path.join(FOLDER, "templates", "*.m4")))]


def read(path):
    if not os.path.exists(path):
        return b""
    with open(path, "rb") as f:
        return f.read()


def write(path, data):
    """An empty result has no file, but the output always has one."""
    if data or path.endswith(".out"):
        with open(path, "wb") as f:
            f.write(data)
    elif os.path.exists(path):
        os.remove(path)


def result(path):
    """The stored result of a template."""
    return Given(read(path + ".out"), read(path + ".err"), int(read(path + ".exit") or 0))


def store_result(path, given):
    write(path + ".out", given.output)
    write(path + ".err", given.errors)
    write(path + ".exit", b"%d\n" % given.code if given.code else b"")


def stored():
    """Name, text and stored result of each template and each stored random text."""
    for path in templates():
        yield os.path.basename(path), read(path + ".m4"), result(path)
    with open(RANDOM, encoding="ascii") as f:
        for line in f:
            row = json.loads(line)
            text, output, errors = (row[key].encode("latin-1") for key in ("text", "output", "errors"))
            yield "stored random text %d" % row["seed"], text, Given(output, errors, row["exit"])


def store():
    for path in templates():
        store_result(path, gnu(JUDGES[0], read(path + ".m4")))
    for path in includes.templates():
        store_result(path, gnu(["m4", "-I", includes.PARTS], read(path + ".m4")))
    with open(RANDOM, "w", encoding="ascii") as f:
        for seed in STORED_SEEDS:
            text = texts.text(seed)
            given = gnu(JUDGES[0], text)
            row = {"seed": seed, "text": text.decode("latin-1"), "output": given.output.decode("latin-1"), "errors": given.errors.decode("latin-1"), "exit": given.code}
            f.write(json.dumps(row) + "\n")


# texts that include files


def check_included(name, folder, text, wanted):
    """The command, and GNU m4 with -G, which looks in its own folder alone."""
    judged(name, quenhovach(folder, text), wanted)
    alike(name + ", m4 -G now", gnu(["m4", "-G"], text, folder), wanted)


def check_includes(first, count):
    if not judge("the command", build_command(), "it could not be built"):
        return
    judge("tests/gnu/included", len(includes.templates()) > 0, "it has no template")
    for path in includes.templates():
        name, text = os.path.basename(path) + ", included", read(path + ".m4")
        check_included(name, includes.PARTS, text, result(path))
        alike(name + ", m4 -I now", gnu(["m4", "-I", includes.PARTS], text), result(path))
    for seed in range(first, first + count):
        case = includes.random_case(seed)
        with tempfile.TemporaryDirectory() as folder:
            includes.put(folder, case.files)
            check_included(case.name, folder, case.text, gnu(["m4", "-I", folder], case.text))


# the examples of docs/GNU.md

# a row of the page; `given` is what it says of 01, GNU and -G, or nothing where it can't be read
Example = collections.namedtuple("Example", "line text given")


def examples():
    """Each indented line of the page. What it says of GNU holds of -G too, unless it says so."""
    with open(PAGE, encoding="utf-8") as f:
        for number, line in enumerate(f, 1):
            row = re.fullmatch(r"    (.*?) {2,}01 (.*?) {2,}GNU (.*?)(?: {2,}-G (.*))?\n", line)
            if row:
                yield Example(number, plain(row.group(1)), [says(words) for words in (row.group(2), row.group(3), row.group(4) or row.group(3))])
            elif line.startswith("    "):
                yield Example(number, b"", None)


def check_example(example):
    name = "docs/GNU.md, line %d" % example.line
    if not example.given:
        return fail("%s: no text with what 01 and GNU make of it" % name)
    ours, *theirs = example.given
    judge(name, any(ours != other for other in theirs), "the example shows no difference")
    given = did(expand(example.text))
    judge(name, given == ours, "expand gives %r" % (given,))
    for command, wanted in zip(JUDGES, theirs):
        given = did(gnu(command, example.text))
        judge(name, given == wanted, "%s gives %r" % (" ".join(command), given))


def check_nothing_left_out():
    """Each table that is gone through has what it should."""
    judge("tests/gnu/templates", len(templates()) > 0, "there is none")
    with open(RANDOM, encoding="ascii") as f:
        seeds = [json.loads(line)["seed"] for line in f]
    judge("tests/gnu/random.jsonl", seeds == list(STORED_SEEDS), "it has the seeds %r" % seeds)
    judge("docs/GNU.md", len(list(examples())) > 0, "it has no example")


def main():
    if not shutil.which("m4"):
        stop("m4 is not installed")
    if sys.argv[1:] == ["--store"]:
        return store()
    first, count = (int(n) for n in sys.argv[1:]) if len(sys.argv) == 3 else (1000, 300)
    print("compared with stored results and live with " + run(["m4", "--version"], b"").stdout.decode().split("\n")[0])
    check_nothing_left_out()
    for name, text, wanted in stored():
        judged(name, expand(text), wanted)
        for command in JUDGES:
            alike("%s, %s now" % (name, " ".join(command)), gnu(command, text), wanted)
    for example in examples():
        check_example(example)
    for seed in range(first, first + count):
        text = texts.text(seed)
        wanted = gnu(JUDGES[0], text)
        judged("random text %d" % seed, expand(text), wanted)
        alike("random text %d, m4 -G" % seed, gnu(JUDGES[1], text), wanted)
    check_includes(first, count)
    finish()


main()
