"""The m4 expander for Python 3.9 and newer, over the shared object libquenhovach.so. One file, no dependencies; x86-64 Linux with the GNU C library.

    sheet = expand(template)                      # bytes in, bytes out
    expander = Expander(pending=4096, budget=10000)
    sheet = expand(template, expander)            # the same in chosen buffers, as often as you like
    expander = Expander(included={"guys.m4": b"define(`guys', `3')"})  # what a template may include
    gain = expand_settings(template)["sway_gain"]  # the sheet read: a dict of int, float and str

`expand` returns a text only where the run is done. A refusal raises `Refused`, and m4exit raises `Exited`, whatever its number: what a template wrote
before it ended itself can't be taken for its sheet by a caller who did not think of that. `expand_settings` raises `BadSheet` too, where the text is no sheet.

A call needs 1.25 MiB of stack. The main thread has what `ulimit -s` says, mostly 8 MiB; so has a thread, unless `threading.stack_size` was set to less.
Before each call the stack that is left is measured, and RuntimeError raised where it is too little: the process would end by a signal otherwise.
"""
from __future__ import annotations

import ctypes
import functools
import struct
import sys
import threading
from dataclasses import dataclass
from enum import IntEnum
from typing import Any, Dict, Iterable, Mapping, Optional, Tuple, Union

MAX_LENGTH = 65536  # of the text and of each buffer, in bytes
MAX_SET_LENGTH = 1048576
NO_ITEMS = b"\0"  # the set where nothing may be included
CHUNK = 128  # bytes of a set that stand together at most
LINES_WORDS = MAX_LENGTH // 64 + 1  # and as many totals: the index of the longest text's lines
SHEET_LINES = 256  # at most
LINE_WORDS = 5  # the words of a line, behind that for the count of lines
BUDGET = 16777216  # steps, where the caller names no other number
STACK = 1280 * 1024 + 16 * 1024  # 1.25 MiB for the expander, the rest for the way there
STACK_TO_READ = 128 * 1024 + 16 * 1024  # less to read a sheet
LIBRARY = "libquenhovach.so.0"  # as the loader finds it; a path has a slash

Text = Union[bytes, bytearray, memoryview]
Name = Union[str, bytes]  # a str is taken as UTF-8
Setting = Union[int, float, str]  # a number, a decimal or a word


class Answer(IntEnum):
    """How a run ended. DONE and EXIT finish it; all others are refusals."""

    DONE = 0  # the text is used up
    EXIT = 1  # m4exit; the detail is its number, 0 to 255
    LEND = 2  # the text or a buffer is longer than MAX_LENGTH
    SPENT = 3  # a step is due, and as many as the budget says are completed
    ROOM = 4  # after the step a buffer would hold more than its length; the detail is a Buffer
    UNCLOSED = 5  # the text ends in a quote, a comment or a call; the detail is an Unclosed
    NAME = 6  # define, pushdef or copydef of what is not a name
    NUMBER = 7  # an argument or a result that is no number, or outside its range
    EXPRESSION = 8  # eval can't read its expression
    DIVISOR = 9  # in eval: a zero divisor, or a shift count outside 0 to 31
    MARK = 10  # a bad quote or comment mark
    NO_TEXT = 11  # defn of a name whose meaning is a predefined macro's: its own name, or a copy
    GONE = 12  # a call closes, and its name has no definition any more
    DEEP = 13  # a 65th open call, or a 257th argument over all open calls
    BAD_SET = 14  # the set is bad, or longer than MAX_SET_LENGTH
    NO_ITEM = 15  # include of a name that no item of the set has
    NO_DEFINITION = 16  # copydef of a name that has no definition


class Fault(IntEnum):
    """Why a text is no sheet of settings."""

    MALFORMED = 20  # a line is not a name, = and a number, a decimal or a word
    TWICE = 21  # a name is given a second time
    TOO_MANY = 22  # there is a 257th line


class Reading(IntEnum):
    """What a setting is."""

    NUMBER = 1
    DECIMAL = 2
    WORD = 3


class Buffer(IntEnum):
    """The lent buffers, by their numbers; what each holds is in include/quenhovach.h."""

    PENDING = 1
    CALLS = 2
    DEFINITIONS = 3
    STREAMS = 4
    WRAP = 5
    ERRORS = 6
    OUTPUT = 7


class Unclosed(IntEnum):
    """What is open where the text ends."""

    QUOTE = 1
    COMMENT = 2  # whose end mark is not a newline; where it is one, the end of the text closes the comment too
    CALL = 3


@dataclass(frozen=True)
class Report:
    """The numbers of an answer."""

    number: Answer
    detail: int  # of EXIT, ROOM and UNCLOSED; else 0
    steps: int  # completed: a refused step is not counted, the one that ends in DONE or EXIT is
    place: int  # bytes of the text taken: on a refusal before the refused step, else in all
    output: int  # bytes written to the output; on a refusal 0
    errors: int  # bytes of error text; on a refusal 0

    def __str__(self) -> str:
        name = self.number.name.lower().replace("_", " ")
        return "answer %d (%s), detail %d, after %d steps, place %d" % (self.number, name, self.detail, self.steps, self.place)


@dataclass(frozen=True)
class Sheet:
    """What a finished run wrote."""

    output: bytes
    errors: bytes  # the error text, from errprint
    report: Report


class NotDone(Exception):
    """The run ended in another answer than DONE."""

    report: Report


class Refused(NotDone):
    """A refusal. There is no text, and the output and error buffers are as they were.

    `line` and `column` are those of the report's place, counted from 1, the column in bytes. Both are None with LEND and BAD_SET: nothing of the text was
    read. Where included text was being read, the place is behind the call that included it.
    """

    def __init__(self, report: Report, line: Optional[int] = None, column: Optional[int] = None) -> None:
        super().__init__(report, line, column)
        self.report = report
        self.line = line
        self.column = column

    def __str__(self) -> str:
        told = "" if self.line is None else " (line %d, column %d)" % (self.line, self.column)
        return "no sheet: %s%s" % (self.report, told)


class Exited(NotDone):
    """The template ended itself by m4exit; `sheet` is what it wrote until then, and `code` is its number. The template says what that means."""

    def __init__(self, sheet: Sheet) -> None:
        super().__init__(sheet)
        self.sheet = sheet
        self.report = sheet.report
        self.code = sheet.report.detail

    def __str__(self) -> str:
        told = ", error text %r" % self.sheet.errors if self.sheet.errors else ""
        return "m4exit(%d) after %d bytes of output%s: %s" % (self.code, self.report.output, told, self.report)


class BadSheet(ValueError):
    """A text that is no sheet of settings. `line` is its first bad line, counted from 1, and `text` has the bytes of that."""

    def __init__(self, fault: Fault, line: int, text: bytes) -> None:
        super().__init__(fault, line, text)
        self.fault = fault
        self.line = line
        self.text = text

    def __str__(self) -> str:
        told = {Fault.MALFORMED: "is no setting", Fault.TWICE: "gives a setting again", Fault.TOO_MANY: "is one too many"}
        return "no settings: line %d %s: %.80r" % (self.line, told[self.fault], self.text)


def make_set(items: Iterable[Tuple[Name, Text]]) -> bytes:
    """A set of these items, names and texts, in the form that include/quenhovach.h has. The first of two items with one name counts.

    Raises ValueError where the set would have more than MAX_SET_LENGTH bytes.
    """
    made = bytearray()
    for name, text in items:
        lengths, joined = (len(_bytes(name)), len(_bytes(text))), _bytes(name) + _bytes(text)
        chunks = [joined[start:start + CHUNK] for start in range(0, len(joined), CHUNK)]
        if len(made) + 9 + len(joined) + len(chunks) + 1 > MAX_SET_LENGTH:
            raise ValueError("with the item %.100r the set would have more than %d bytes" % (name, MAX_SET_LENGTH))
        made += b"\x81" + b"".join(length.to_bytes(4, "little") for length in lengths)
        made += b"".join(bytes([len(chunk)]) + chunk for chunk in chunks)
    return bytes(made) + b"\0"


def _bytes(part: Union[str, Text]) -> bytes:
    return part.encode() if isinstance(part, str) else memoryview(part).tobytes()


class Expander:
    """Seven buffers of chosen lengths, a budget and what may be included, for one run after the other. What the buffers held before never matters to a run.

    `included` has the texts that a template may include, by their names; or it is a set's bytes, which are lent as they are.

    Threads that share an expander wait for each other. With one each they run at the same time: a call does not hold Python's global lock.
    """

    def __init__(
        self, *, pending: int = MAX_LENGTH, calls: int = MAX_LENGTH, definitions: int = MAX_LENGTH, streams: int = MAX_LENGTH, wrap: int = MAX_LENGTH,
        errors: int = MAX_LENGTH, output: int = MAX_LENGTH, budget: int = BUDGET, included: Union[Mapping[Name, Text], Text] = NO_ITEMS,
        library: str = LIBRARY,
    ) -> None:
        if not 0 <= budget < 2**32:
            raise ValueError("the budget is a 32-bit number, 0 to 4294967295, and not %d" % budget)
        lengths = (pending, calls, definitions, streams, wrap, errors, output)
        self.buffers: Tuple[ctypes.Array[ctypes.c_char], ...] = tuple(ctypes.create_string_buffer(length) for length in lengths)
        self._budget = budget
        self._set = make_set(included.items()) if isinstance(included, Mapping) else _bytes(included)
        self._library = _load(library)
        self._lock = threading.Lock()

    def run(self, text: Text) -> Sheet:
        """Expands a text. Gives back all of a run that is done, and raises `Exited` or `Refused` for any other."""
        own = memoryview(text).tobytes()  # nobody else writes to it during the call
        with self._lock:
            report = self._call(own)
            output, errors = self._front(Buffer.OUTPUT, report.output), self._front(Buffer.ERRORS, report.errors)
        if report.number not in (Answer.DONE, Answer.EXIT):
            raise Refused(report, *_position(self._library, own, report))
        sheet = Sheet(output, errors, report)
        if report.number == Answer.EXIT:
            raise Exited(sheet)
        return sheet

    def settings(self, text: Text) -> Dict[str, Setting]:
        """Expands a text and reads what it wrote as a sheet: the settings by their names, in the sheet's order.

        Raises what `run` raises, and `BadSheet` where what was written is no sheet. Error text is not given back.
        """
        return _settings(self._library, self.run(text).output)

    def _call(self, text: bytes) -> Report:
        _check_stack(STACK)
        lent = [part for buffer in self.buffers for part in (buffer, len(buffer))]
        numbers = (ctypes.c_uint32 * 6)()
        self._library.quenhovach_expand(text, len(text), self._set, len(self._set), *lent, self._budget, numbers)
        return Report(Answer(numbers[0]), *numbers[1:])

    def _front(self, buffer: Buffer, count: int) -> bytes:
        return memoryview(self.buffers[buffer - 1])[:count].tobytes()


def expand(text: Text, expander: Optional[Expander] = None) -> bytes:
    """The sheet of a template; raises what `Expander.run` raises.

    Error text goes to standard error, as with the command; `Expander.run` gives it back instead.
    """
    sheet = (Expander() if expander is None else expander).run(text)
    if sheet.errors:
        sys.stderr.write(sheet.errors.decode("utf-8", "backslashreplace"))
    return sheet.output


def expand_settings(text: Text, expander: Optional[Expander] = None) -> Dict[str, Setting]:
    """The settings of a template, by their names; raises what `Expander.settings` raises. Error text goes to standard error, as with `expand`."""
    expander = Expander() if expander is None else expander
    return _settings(expander._library, expand(text, expander))


def read_settings(text: Text, library: str = LIBRARY) -> Dict[str, Setting]:
    """Reads a sheet that was written before, of any length; raises `BadSheet` where it is none."""
    return _settings(_load(library), memoryview(text).tobytes())


def _settings(library: Any, text: bytes) -> Dict[str, Setting]:
    _check_stack(STACK_TO_READ)
    words, line = (ctypes.c_uint64 * (1 + SHEET_LINES * LINE_WORDS))(), ctypes.c_uint32()
    number = library.quenhovach_sheet_read(text, len(text), words, ctypes.byref(line))
    if number != 0:
        raise BadSheet(Fault(number), line.value, text.split(b"\n", line.value)[line.value - 1])
    settings = {}
    for at in range(1, 1 + words[0] * LINE_WORDS, LINE_WORDS):
        place, length = words[at:at + 2]
        settings[_word(text, place, length)] = _setting(text, *words[at + 2:at + LINE_WORDS])
    return settings


def _setting(text: bytes, kind: int, value: int, length: int) -> Setting:
    if kind == Reading.NUMBER:
        return ctypes.c_int32(value).value
    if kind == Reading.DECIMAL:
        return struct.unpack("<d", struct.pack("<Q", value))[0]
    return _word(text, value, length)


def _word(text: bytes, place: int, length: int) -> str:
    return text[place:place + length].decode("ascii")


def _position(library: Any, text: bytes, report: Report) -> Tuple[Optional[int], Optional[int]]:
    """Line and column of a report's place, by the index of the text's lines; none where nothing of the text was read."""
    if report.number in (Answer.LEND, Answer.BAD_SET):
        return None, None
    words, totals = (ctypes.c_uint64 * LINES_WORDS)(), (ctypes.c_uint32 * LINES_WORDS)()
    index = (words, LINES_WORDS, totals, LINES_WORDS)
    line, start = ctypes.c_uint64(), ctypes.c_uint64()
    library.quenhovach_lines_build(text, len(text), *index)
    library.quenhovach_lines_line_of(len(text), *index, report.place, ctypes.byref(line))
    library.quenhovach_lines_start_of(len(text), *index, line.value, ctypes.byref(start))
    return line.value, report.place - start.value + 1  # no answer is a refusal: the place is in the text


@functools.lru_cache(maxsize=None)
def _load(library: str) -> Any:
    """The shared object, with what its functions take; the header says it."""
    loaded = ctypes.CDLL(library)
    size, pointer = ctypes.c_size_t, ctypes.c_void_p
    for name, takes in {
        "expand": [ctypes.c_char_p, size] * 2 + [pointer, size] * 7 + [ctypes.c_uint32, pointer],
        "sheet_read": [ctypes.c_char_p, size, pointer, pointer],
        "lines_build": [ctypes.c_char_p, size] + [pointer, size] * 2,
        "lines_line_of": [size] + [pointer, size] * 2 + [size, pointer],
        "lines_start_of": [size] + [pointer, size] * 2 + [ctypes.c_uint64, pointer],
    }.items():
        function = getattr(loaded, "quenhovach_" + name)
        function.argtypes = takes
        function.restype = ctypes.c_uint32
    return loaded


_host = ctypes.CDLL(None)
_host.pthread_self.restype = ctypes.c_size_t
_host.pthread_getattr_np.argtypes = [ctypes.c_size_t, ctypes.c_void_p]
_thread = threading.local()


def _check_stack(needed: int) -> None:
    left = stack_left()
    if left < needed:
        told = "a call needs %d bytes of stack, and this thread has %d left; threading.stack_size gives new threads more"
        raise RuntimeError(told % (needed, left))


def stack_left() -> int:
    """How many bytes of stack the calling thread has left."""
    if not hasattr(_thread, "stack_end"):  # found once for each thread, as it takes longer than a short run
        attributes = (ctypes.c_uint64 * 64)()
        end, length = ctypes.c_size_t(), ctypes.c_size_t()
        if _host.pthread_getattr_np(_host.pthread_self(), attributes) != 0:
            raise RuntimeError("the C library does not say where this thread's stack ends")
        _host.pthread_attr_getstack(attributes, ctypes.byref(end), ctypes.byref(length))
        _host.pthread_attr_destroy(attributes)
        _thread.stack_end = end.value
    context = (ctypes.c_uint64 * 512)()  # a ucontext_t; on x86-64 its 21st word is the stack pointer
    _host.getcontext(context)
    return context[20] - _thread.stack_end
