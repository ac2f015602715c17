/* quenhovach.h: the m4 expander for C and C++.
 *
 * One function expands one m4 text in buffers that the caller lends. Another expands a text and reads what it wrote as a sheet of settings;
 * two more read a text as a sheet, and find a setting by its name. Three, at the end, find the line of a place in a text. They are built by
 * `rt lib` in crates/quenhovach as out/libquenhovach.a there, for x86-64 Linux, once their proofs are checked; ./install puts that in
 * place, and a shared object made of it. Of C's library they need memcpy and memset.
 *
 * A run ends on every text, every set of texts to include, every lent length and every budget, in one of seventeen answers. Two of them
 * finish it: "done" and "exit". The fifteen others are refusals, and a refusal gives no text at all: there is no shortened output.
 */
#ifndef QUENHOVACH_H
#define QUENHOVACH_H

#include <stddef.h>
#include <stdint.h>
#include <string.h>

#ifdef __cplusplus
extern "C" {
#endif

/* The version of this header; rust/Cargo.toml has the same. */
#define QUENHOVACH_VERSION "0.3.0"

/* The greatest length, in bytes, of the text and of each buffer. */
#define QUENHOVACH_MAX_LENGTH 65536

/* The greatest length, in bytes, of the set. */
#define QUENHOVACH_MAX_SET_LENGTH 1048576

/* The answers, by their numbers. The detail is 0 where none is named. */
enum {
    QUENHOVACH_DONE = 0,           /* the text is used up */
    QUENHOVACH_EXIT = 1,           /* m4exit; the detail is its number, 0 to 255 */
    QUENHOVACH_LEND = 2,           /* the text or a buffer is longer than QUENHOVACH_MAX_LENGTH */
    QUENHOVACH_SPENT = 3,          /* a step is due, and as many as the budget says are completed */
    QUENHOVACH_ROOM = 4,           /* after the step a buffer would hold more than its length; the detail is the buffer, 1 to 7 */
    QUENHOVACH_UNCLOSED = 5,       /* the text ends in a quote, a comment or a call; the detail says in which */
    QUENHOVACH_NAME = 6,           /* define, pushdef or copydef of what is not a name */
    QUENHOVACH_NUMBER = 7,         /* an argument or a result that is no number, or outside its range */
    QUENHOVACH_EXPRESSION = 8,     /* eval cannot read its expression */
    QUENHOVACH_DIVISOR = 9,        /* in eval: a zero divisor, or a shift count outside 0 to 31 */
    QUENHOVACH_MARK = 10,          /* a bad quote or comment mark */
    QUENHOVACH_NO_TEXT = 11,       /* defn of a name whose meaning is a predefined macro's: its own name, or a copy */
    QUENHOVACH_GONE = 12,          /* a call closes, and its name has no definition any more */
    QUENHOVACH_DEEP = 13,          /* a 65th open call, or a 257th argument over all open calls */
    QUENHOVACH_BAD_SET = 14,       /* the set is bad, or longer than QUENHOVACH_MAX_SET_LENGTH; judged whole, right after "lend" */
    QUENHOVACH_NO_ITEM = 15,       /* include of a name that no item of the set has */
    QUENHOVACH_NO_DEFINITION = 16  /* copydef of a name that has no definition */
};

/* The buffers, by their numbers: the detail of "room". */
enum {
    QUENHOVACH_BUFFER_PENDING = 1,
    QUENHOVACH_BUFFER_CALLS = 2,
    QUENHOVACH_BUFFER_DEFINITIONS = 3,
    QUENHOVACH_BUFFER_STREAMS = 4,
    QUENHOVACH_BUFFER_WRAP = 5,
    QUENHOVACH_BUFFER_ERRORS = 6,
    QUENHOVACH_BUFFER_OUTPUT = 7
};

/* The detail of "unclosed". */
enum {
    QUENHOVACH_UNCLOSED_QUOTE = 1,
    QUENHOVACH_UNCLOSED_COMMENT = 2, /* whose end mark is not a newline: where it is one, the end of the text closes the comment too */
    QUENHOVACH_UNCLOSED_CALL = 3
};

/* Where each number stands in the report. */
enum {
    QUENHOVACH_REPORT_NUMBER = 0, /* the answer, which is also returned */
    QUENHOVACH_REPORT_DETAIL = 1,
    QUENHOVACH_REPORT_STEPS = 2,  /* completed steps: a refused step is not counted, the one that ends in done or exit is */
    QUENHOVACH_REPORT_PLACE = 3,  /* bytes of the text taken: on a refusal before the refused step, else in all; with "lend" and "bad set" 0 */
    QUENHOVACH_REPORT_OUTPUT = 4, /* bytes written to output; on a refusal 0 */
    QUENHOVACH_REPORT_ERRORS = 5, /* bytes written to errors; on a refusal 0 */
    QUENHOVACH_REPORT_LENGTH = 6
};

/* Expands the text and returns the number of the answer.
 *
 * The set has the texts that the text may include, each an item with a name and a text. include(name) puts the text of the first item with
 * that name in front of the text ahead, where it counts as pending text; sinclude does the same, and gives nothing where no item has the
 * name. A set is bytes, up to QUENHOVACH_MAX_SET_LENGTH: one byte of kind, then a body whose length the kind fixes.
 *
 *   0         no body       ends the set; nothing stands behind it
 *   1 to 128  as many bytes carries the next bytes of the item begun last
 *   129       8 bytes       begins an item: the lengths of its name and of its text, 32 bits each, least byte first
 *
 * An item's name and text, joined, follow it in chunks of the kinds 1 to 128, each full at 128 except the last; an item without a byte has
 * no chunk. A name is any bytes, none too. Who includes nothing lends the set of one byte 0; no bytes at all are a bad set. The set is judged
 * whole before the first step, whether it is used or not. examples/c/set.c makes one.
 *
 * The length of each buffer is its limit. What counts against it, after each step (lengths and links are kept elsewhere and not counted):
 *
 *   pending      1  bytes pushed back and not yet read
 *   calls        2  names and arguments collected of all open calls
 *   definitions  3  name and text of every live definition that the text made; of a copy of a predefined macro the name alone
 *   streams      4  the bytes in streams 1 to 9
 *   wrap         5  wrap text that waits
 *   errors       6  the error text (errprint)
 *   output       7  the output
 *
 * The budget is the most steps that may be completed, any 32-bit number. A step takes one token with all its consequences, and the end of
 * the text is a step too: the empty text needs a budget of 1.
 *
 * What is written:
 *
 *   answer             report    pending to wrap   errors, output
 *   done, exit         all six   all zero          the text from the front, as many bytes as the report counts; behind it the old bytes
 *   lend               all six   untouched         untouched
 *   any other refusal  all six   all zero          untouched ("bad set" too, although no step was made)
 *
 * "All zero" means over the whole lent length. What the seven buffers and the report held before makes no difference to the answer or to
 * what is written. The text and the set are only read.
 *
 * Room never shapes text: where a run ends in anything but "room" or "spent", a second run of the same text with one set, in buffers that
 * are nowhere shorter, and none longer than QUENHOVACH_MAX_LENGTH, and with no smaller budget gives the same six numbers and the same
 * written bytes.
 *
 * Every byte once: each byte that a run that is done placed in a stream 0 to 9 stands in its output exactly once, but for those that
 * undivert moved while a discarding stream was current, which are lost; bytes that go the same way keep their order. After exit the
 * output is what stood in stream 0.
 *
 * What the caller owes:
 *
 *   - Each pointer leads to as many bytes as the length behind it says. With length 0 it may be null. `report` leads to six numbers and
 *     is not null.
 *   - The seven buffers and the report do not overlap each other, nor the text or the set, and nothing else writes to any of these during
 *     the call. Text and set may overlap.
 *   - The calling thread has 1.25 MiB of stack left. (Less was needed in every test; tests/costs/stack.py holds the expander to it.)
 *
 * The function keeps no state between calls and uses no heap. It may run in several threads at once, each with its own buffers.
 */
uint32_t quenhovach_expand(
    const uint8_t *text, size_t text_len,
    const uint8_t *set, size_t set_len,
    uint8_t *pending, size_t pending_len,
    uint8_t *calls, size_t calls_len,
    uint8_t *definitions, size_t definitions_len,
    uint8_t *streams, size_t streams_len,
    uint8_t *wrap, size_t wrap_len,
    uint8_t *errors, size_t errors_len,
    uint8_t *output, size_t output_len,
    uint32_t budget,
    uint32_t report[QUENHOVACH_REPORT_LENGTH]);

/* The sheet: what a controller reads. A text is a sheet if each of its lines is a name, `=` and a reading, with nothing round them: no
 * blank, no CR, no comment. Bytes behind the last newline are a line too. A text without a byte is a sheet without a line.
 *
 * A name is a letter or underscore, then letters, digits and underscores. A reading is one of these:
 *
 *   number   an optional minus and one or more digits, within -2147483648 to 2147483647
 *   decimal  an optional minus, one or more digits, a point, one or more digits, at most 15 digits in all; its value is the double nearest
 *            to it, -0.0 with its sign
 *   word     shaped like a name
 *
 * A sheet has at most QUENHOVACH_SHEET_LINES lines, and no name twice.
 *
 * What the caller owes, beside what quenhovach_expand has above:
 *
 *   - `sheet`, `report` and `line` are not null. What a function writes does not overlap anything else that it is given, and nothing else
 *     writes to any of it during the call.
 *   - The calling thread has 1.25 MiB of stack left for quenhovach_sheet_expand, 128 KiB for quenhovach_sheet_read and 16 KiB for
 *     quenhovach_sheet_find. (Less was needed in every test; tests/costs/stack.py holds them to it.)
 *
 * The functions keep no state between calls and use no heap, and they may run in several threads at once. examples/c/controller.c takes
 * its settings from a sheet.
 */

/* The refusals of a sheet, answers beside those above. The first bad line counts; of one line they are judged in the order 22, 20, 21. */
enum {
    QUENHOVACH_SHEET_MALFORMED = 20, /* a line is not a name, `=` and a reading; the detail is the number of the line, from 1 */
    QUENHOVACH_SHEET_TWICE = 21,     /* a name is given a second time; the detail is the number of that line */
    QUENHOVACH_SHEET_TOO_MANY = 22   /* there is a 257th line; the detail is 257 */
};

#define QUENHOVACH_SHEET_LINES 256

/* The kinds of a reading. */
enum {
    QUENHOVACH_READING_NUMBER = 1,
    QUENHOVACH_READING_DECIMAL = 2,
    QUENHOVACH_READING_WORD = 3
};

/* A line of a sheet. Places count from the front of the text that was read. */
typedef struct quenhovach_line {
    uint64_t name;        /* the place of its name */
    uint64_t name_length;
    uint64_t kind;        /* of its reading, as above */
    uint64_t value;       /* a number as its 32 bits, a decimal as the 64 bits of its double, a word as its place */
    uint64_t length;      /* of a word; else 0 */
} quenhovach_line;

/* A sheet: the first `count` of its lines. Those behind them have no name and the number 0: 0, 0, 1, 0, 0. */
typedef struct quenhovach_sheet {
    uint64_t count;
    quenhovach_line lines[QUENHOVACH_SHEET_LINES];
} quenhovach_sheet;

/* The number of a line whose kind is QUENHOVACH_READING_NUMBER. */
static inline int32_t quenhovach_line_number(const quenhovach_line *line)
{
    uint32_t bits = (uint32_t)line->value;
    int32_t number;

    memcpy(&number, &bits, sizeof number);
    return number;
}

/* The double of a line whose kind is QUENHOVACH_READING_DECIMAL. */
static inline double quenhovach_line_decimal(const quenhovach_line *line)
{
    double decimal;

    memcpy(&decimal, &line->value, sizeof decimal);
    return decimal;
}

/* Expands the text as quenhovach_expand does, and reads what it wrote as a sheet. Returns the number of the answer.
 *
 * Only a run that ended done is read; "exit" is not done. With any other answer of quenhovach_expand, report and buffers are as that has
 * them. Where the run ended done, the answer is "done" or a refusal of the sheet. With such a refusal all but number and detail is as after
 * done: output and errors have the written text, and the report its counts.
 *
 * The sheet is written with every answer. With any but "done" it has no lines. */
uint32_t quenhovach_sheet_expand(
    const uint8_t *text, size_t text_len,
    const uint8_t *set, size_t set_len,
    uint8_t *pending, size_t pending_len,
    uint8_t *calls, size_t calls_len,
    uint8_t *definitions, size_t definitions_len,
    uint8_t *streams, size_t streams_len,
    uint8_t *wrap, size_t wrap_len,
    uint8_t *errors, size_t errors_len,
    uint8_t *output, size_t output_len,
    uint32_t budget,
    uint32_t report[QUENHOVACH_REPORT_LENGTH],
    quenhovach_sheet *sheet);

/* Reads a text of any length as a sheet. Returns 0, and 0 is written as the line; or 20, 21 or 22, and the number of the bad line is
 * written there. The sheet is written in any case; with a refusal it has no lines. */
uint32_t quenhovach_sheet_read(const uint8_t *text, size_t text_len, quenhovach_sheet *sheet, uint32_t *line);

/* The first line of the sheet, from 0, that has this name; QUENHOVACH_SHEET_LINES where there is none. The text is the one that was read:
 * after quenhovach_sheet_expand `output`, with as many bytes as the report counts.
 *
 * A sheet and a text that do not belong together are answered too: by the first line below the sheet's count whose name lies in the text
 * and has these bytes. */
size_t quenhovach_sheet_find(const quenhovach_sheet *sheet, const uint8_t *text, size_t text_len, const uint8_t *name, size_t name_len);

/* The index of lines. A refusal gives a byte place, and people look for a line: build the index of the text, ask for the line of the place,
 * then for the start of that line. Lines count from 1. The column, counted in bytes from 1, is place - start + 1.
 *
 * The index of a text is QUENHOVACH_LINES_WORDS(text_len) words and as many totals, in arrays that the caller lends. Word k has one bit for
 * each of the bytes 64 k to 64 k + 63 of the text, the least bit for the first, set where the byte is a newline (10); bits behind the text
 * are 0. Total k is the count of newlines before byte 64 k. Once the index is built, the text is not needed any more: the two questions
 * take its length.
 *
 * Each function returns 0 or the number of a refusal. Refusals are judged in the order 30, 33, 31, 32. Words and totals that were not built
 * are answered too, by the rules below.
 *
 * What the caller owes:
 *
 *   - `text` leads to text_len bytes. `words` and `totals` lead to as many elements as words_len and totals_len say: these are not counts
 *     of bytes. With length 0 a pointer may be null. `line` and `start` are not null.
 *   - What a function writes does not overlap anything else that it is given, and nothing else writes to any of it during the call.
 *
 * The functions keep no state between calls and use no heap, and they may run in several threads at once.
 */
enum {
    QUENHOVACH_LINES_TOO_LONG = 30, /* the text is longer than QUENHOVACH_MAX_LENGTH */
    QUENHOVACH_LINES_BEYOND = 31,   /* the place is beyond the end of the text; the end itself is allowed */
    QUENHOVACH_LINES_NO_LINE = 32,  /* there is no such line */
    QUENHOVACH_LINES_NO_ROOM = 33   /* fewer words or totals are lent than the text's index has */
};

/* How many words, and how many totals, the index of a text of this length has. */
#define QUENHOVACH_LINES_WORDS(text_len) ((text_len) / 64 + 1)

/* Builds the index of a text. Returns 0, or 30 or 33.
 *
 * Only the text's own words and totals are written. What is lent behind them stays as it was; with a refusal everything does. */
uint32_t quenhovach_lines_build(
    const uint8_t *text, size_t text_len,
    uint64_t *words, size_t words_len,
    uint32_t *totals, size_t totals_len);

/* Writes the line of a place: one more than the newlines before it, so a newline is on the line that it ends. Returns 0, or 30, 33 or 31;
 * with a refusal the line is written as 0. The place of a report is never beyond its text.
 *
 * One total and one word are read. The line is that total, and one for each set bit below the place in that word, and one more. */
uint32_t quenhovach_lines_line_of(
    size_t text_len,
    const uint64_t *words, size_t words_len,
    const uint32_t *totals, size_t totals_len,
    size_t place, uint64_t *line);

/* Writes the place where a line starts: 0 for line 1, else the place behind the newline that ends the line before it. Returns 0, or 30, 33
 * or 32; with a refusal the start is written as 0. Where a text ends in a newline, its last line is empty and starts at text_len.
 *
 * That newline is sought in the last word whose total is below line - 1. Where there is no such word, or its set bits are too few, there is
 * no such line; so it is with line 0. */
uint32_t quenhovach_lines_start_of(
    size_t text_len,
    const uint64_t *words, size_t words_len,
    const uint32_t *totals, size_t totals_len,
    uint64_t line, uint64_t *start);

#ifdef __cplusplus
}
#endif

#endif
