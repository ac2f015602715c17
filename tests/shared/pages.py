"""How the pages of docs/ write an example down, for the tests that run them: tests/gnu/run.py and tests/documents/language.py."""
import collections
import re

# what a run gave; for GNU m4 `told` says whether it wrote messages of its own, for our programs `answer` is the number of the answer
Given = collections.namedtuple("Given", "output errors code told answer", defaults=(False, None))


def plain(words):
    """The bytes of an example: \\n, \\t and \\xNN are single bytes, 'N times S' is S repeated."""
    times = re.fullmatch(r"([\d,]+) times (.*)", words)
    if times:
        return int(times.group(1).replace(",", "")) * plain(times.group(2))
    byte = lambda sign: {b"n": b"\n", b"t": b"\t"}.get(sign) or bytes([int(sign[1:], 16)])
    return re.sub(rb"\\(n|t|x[0-9a-f]{2})", lambda m: byte(m.group(1)), words.encode())


def says(words):
    """What a page says of a run: the bytes of its output and error text, whether there is a message, and the status; or the number of a refusal."""
    refusal = re.fullmatch(r"refused (\d+)", words)
    if refusal:
        return int(refusal.group(1))
    result = re.fullmatch(r'"(.*?)"(?:, errors "(.*)")?(, message)?(?:, status (\d+))?', words)
    if result:
        return plain(result.group(1)), plain(result.group(2) or ""), bool(result.group(3)), int(result.group(4) or 0)
    return plain(words), b"", False, 0


def did(given):
    """The same of what a program gave. A refusal that wrote something is none."""
    if given.answer in (None, 0, 1) or given.output or given.errors:
        return given.output, given.errors, given.told, given.code
    return given.answer
