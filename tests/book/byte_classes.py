#!/usr/bin/env python3
"""byte_classes.py: ranges of bytes stand in one file of the code and on one page of the book of rules; every reader asks there.

Looked for in every function and every definition, with all literals as numbers: an order comparison or a range with a byte literal; both ends of
the letters or the digits among the numbers that are compared; a digit's or letter's first byte subtracted, and the rest compared with their count; a
class listed. In the book also its own test of a range, in proofs too. In rust/, where one file has the classes once more, a range of bytes or a
question to the standard library. A number that may be a count as well (10, 64, 65) is nothing by itself.
What must be found and what must not is tried first, and the files that have ranges must be found to have them, so that a search that finds nothing
any more fails. Ends with 'N passed, M failed'; exit status 0 only if M is 0.
"""
import glob
import os
import re
import sys

sys.dont_write_bytecode = True
sys.path.insert(0, os.path.join(os.path.dirname(os.path.abspath(__file__)), "..", "shared"))
import byte_classes_samples as samples  # noqa: E402
from places import ROOT  # noqa: E402
from tally import fail, finish, judge  # noqa: E402

# where ranges of bytes stand: the code, the book, the laws of its classes, and the list of all definitions
CODE = ["crates/ascii/src/lib.rt"]
BOOK = ["crates/rules/specs/Bytes.antt"]
PROOFS = ["crates/rules/proofs/Classes.antt", "crates/rules/proofs/Book.antt"]
# the crate and the command, which can't call the proved function; this file is held to its vectors
RUST = ["rust/src/bin/quenhovach/bytes.rs"]

# the numbers that a comparison has at the lower and at the upper end of a range
ENDS = [({47, 48}, {57, 58}), ({64, 65}, {90, 91}), ({96, 97}, {122, 123})]
FIRST, COUNTS = {48, 65, 97}, {9, 10, 25, 26}
BLANKS, DIGITS, LETTERS = {9, 10, 32}, set(range(48, 58)), set(range(65, 91)) | set(range(97, 123))
ESCAPES = {"n": 10, "t": 9, "r": 13, "0": 0, "\\": 92, "'": 39, '"': 34}

# a byte is written @N once it is a number, other numbers N
BEHIND = r"\(*@?\d+(?: as \w+)?\)*(?!\w)"
NUMBER = r"(?<![\w.])" + BEHIND
ORDER = r"(?:(?<!<)<=?(?![<=])|(?<![->=])>=?(?![>=]))"
COMPARED = re.compile(r"%s\s*(%s)|(%s)(?=\s*%s)" % (ORDER, BEHIND, NUMBER, ORDER))
RANGE = re.compile(r"\.\.=?\s*(%s)|(%s)(?=\s*\.\.)" % (BEHIND, NUMBER))
EQUAL = re.compile(r"[=!]=\s*(%s)|(%s)(?=\s*[=!]=)" % (BEHIND, NUMBER))
ARM = re.compile(r"(?<![\w.=])@?\d+(?:\s*\|\s*@?\d+)*(?=\s*=>)")
SUBTRACTED = re.compile(r"-\s*(%s)|sub_\w+\([^()]*,\s*(%s)" % (BEHIND, BEHIND))
FUNCTION = re.compile(r"^ *(?:pub(?:\(\w+\))? )?(?:extern \"C\" )?fn ", re.M)
CONTRACT = re.compile(r"^ *(?:requires|ensures|invariant|variant|ghost)\b.*$", re.M)
BOOK_ORDER = re.compile(r"\b(?:leb|ltb)\s+(\([^()]*(?:\([^()]*\)[^()]*)*\)|\S+)\s+(\([^()]*(?:\([^()]*\)[^()]*)*\)|\S+)")
BOOK_SIGN = re.compile(r"[≤<]\s*(%s)|(%s)(?=\s*[≤<])" % (BEHIND, NUMBER))
BOOK_EQUAL = re.compile(r"\beqb\s+\S+\s+(%s)" % BEHIND)


def numbers(text):
    """The numbers in a text, bytes as (N, True)."""
    return {(int(n), bool(at)) for at, n in re.findall(r"(@?)\b(\d+)\b", text)}


def found(pattern, text):
    """The numbers in a pattern's groups."""
    return numbers(" ".join(group for match in pattern.finditer(text) for group in match.groups() if group))


def plain(these):
    return {n for n, _ in these}


def has_range(compared, subtracted, listed):
    """What the numbers of a function or definition come to."""
    values = plain(compared)
    return (
        any(is_byte for _, is_byte in compared)
        or any(low & values and high & values for low, high in ENDS)
        or bool(FIRST & plain(subtracted) and COUNTS & values)
        or BLANKS <= plain(listed)
    )


def numbered(text):
    """Source without comments and texts, every literal as a number."""
    text = re.sub(r'b"(?:\\.|[^"\\])*"', '""', text)
    text = re.sub(r"b'(?:\\x(\w\w)|\\(.)|([^'\\]))'", lambda m: "@%d" % (int(m[1], 16) if m[1] else ESCAPES[m[2]] if m[2] else ord(m[3])), text)
    text = re.sub(r"//.*", "", text)
    text = re.sub(r"\b0x([0-9a-fA-F_]+?)(?:[ui]\w+)?\b", lambda m: str(int(m[1].replace("_", ""), 16)), text)
    text = re.sub(r"\b(\d[\d_]*)(?:[ui](?:8|16|32|64|size))?\b", lambda m: m[1].replace("_", ""), text)
    for name, kind, value in re.findall(r"const (\w+): (\w+) = @?(\d+);", text):
        text = re.sub(r"\b%s\b" % name, "@" + value if kind == "u8" else value, text)
    return text


def code_ranges(text):
    """The functions of a source that have a range of bytes, by their first lines."""
    for block in re.split(r"(?m)^(?=%s)" % FUNCTION.pattern.lstrip("^"), numbered(text)):
        body = CONTRACT.sub("", block)
        arms = [plain(numbers(arm)) for arm in ARM.findall(body)]
        listed = found(EQUAL, body) | {(n, False) for arm in arms for n in arm}
        in_one_arm = any(len(arm & DIGITS) > 2 or len(arm & LETTERS) > 5 for arm in arms)
        contracts = "\n".join(CONTRACT.findall(block))
        if in_one_arm or has_range(found(COMPARED, body) | found(RANGE, body), found(SUBTRACTED, body), listed) or any(book_ranges(contracts)):
            yield block.strip().split("\n")[0]


def book_ranges(text):
    """The definitions of a page that have a range of bytes, by their first lines."""
    text = re.sub(r"--.*", "", text)
    text = re.sub(r'\(?\bcode "(?:\\(.)|([^"\\]))"\)?', lambda m: "@%d" % (ESCAPES[m[1]] if m[1] else ord(m[2])), text)
    text = re.sub(r"\b0x([0-9a-fA-F]+)\b", lambda m: str(int(m[1], 16)), text)
    for block in re.split(r"\n\s*\n", text):
        joined = " ".join(block.split())
        compared = found(BOOK_ORDER, joined) | found(BOOK_SIGN, joined)
        if re.search(r"\branging\b", joined) or has_range(compared, found(SUBTRACTED, joined), found(BOOK_EQUAL, joined)):
            yield block.strip().split("\n")[0]


def proof_ranges(text):
    return (line.strip() for line in text.splitlines() if re.search(r"\branging\b", line))


def rust_ranges(text):
    """The lines of a Rust source that tell a byte's class by a range, or ask the standard library for it."""
    asked = r"\bis_(?:ascii_)?(?:alphabetic|alphanumeric|digit|uppercase|lowercase|whitespace|hexdigit|numeric)\(\)|\bto_digit\("
    ranged = r"b'(?:\\.|[^'\\])'\s*\.\.|\.\.=?\s*b'|%s\s*b'|b'(?:\\.|[^'\\])'\s*%s" % (ORDER, ORDER)
    return (line.strip() for line in text.splitlines() if re.search(asked + "|" + ranged, line.split("//")[0]))


def files(pattern):
    return sorted(os.path.relpath(path, ROOT) for path in glob.glob(os.path.join(ROOT, pattern), recursive=True))


def read(path):
    with open(os.path.join(ROOT, path), encoding="utf-8") as file:
        return file.read()


def try_samples():
    """What must be found and what must not."""
    for search, texts, wanted in [
        (code_ranges, samples.FOUND_IN_CODE, True),
        (code_ranges, samples.PASSED_IN_CODE, False),
        (book_ranges, samples.FOUND_IN_BOOK, True),
        (book_ranges, samples.PASSED_IN_BOOK, False),
        (rust_ranges, samples.FOUND_IN_RUST, True),
        (rust_ranges, samples.PASSED_IN_RUST, False),
    ]:
        for text in texts:
            judge(repr(text), bool(list(search(text))) == wanted, "not found" if wanted else "found, and is no range of bytes")


def try_file(path, found, has_ranges):
    """A file has ranges of bytes where it should, and else none."""
    judge(path, bool(found) == has_ranges, "a range of bytes: %s" % ", ".join(found) if found else "it has no range of bytes")


def main():
    try_samples()
    for search, pattern, places in [
        (code_ranges, "crates/*/src/**/*.rt", CODE),
        (book_ranges, "crates/*/specs/**/*.antt", BOOK),
        (proof_ranges, "crates/*/proofs/**/*.antt", PROOFS),
        (rust_ranges, "rust/src/**/*.rs", RUST),
    ]:
        paths = files(pattern)
        for place in set(places) - set(paths):
            fail("%s: no such file" % place)
        for path in paths:
            try_file(path, list(search(read(path))), path in places)
    finish()


main()
