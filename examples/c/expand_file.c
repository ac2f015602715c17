/* expand_file FILE [INCLUDED]...: expands an m4 template to a settings sheet on standard output. It may include the files named behind it,
 * by their names without folders.
 *
 * A refused template gives no sheet: a message on standard error says what was refused and where, with line and column, and the exit
 * status is 1. So it is with a file that cannot be read, and with a sheet that cannot be written whole. Where the template ends itself
 * by m4exit, what it put out so far is the sheet, and its number is the exit status.
 */
#include <stdio.h>
#include <stdlib.h>
#include <string.h>

#include "quenhovach.h"
#include "set.h"

#define BUDGET 16777216
#define WORDS QUENHOVACH_LINES_WORDS(QUENHOVACH_MAX_LENGTH)

/* One byte more than a text may have: a longer file is then refused by the expander, and never cut. */
static uint8_t text[QUENHOVACH_MAX_LENGTH + 1];

/* The set of the files that may be included, and one of them while it is read: a longer one does not fit a set. */
static uint8_t set_bytes[QUENHOVACH_MAX_SET_LENGTH];
static uint8_t included[QUENHOVACH_MAX_SET_LENGTH];

static uint8_t pending[QUENHOVACH_MAX_LENGTH];
static uint8_t calls[QUENHOVACH_MAX_LENGTH];
static uint8_t definitions[QUENHOVACH_MAX_LENGTH];
static uint8_t streams[QUENHOVACH_MAX_LENGTH];
static uint8_t wrap[QUENHOVACH_MAX_LENGTH];
static uint8_t errors[QUENHOVACH_MAX_LENGTH];
static uint8_t output[QUENHOVACH_MAX_LENGTH];

/* The index of the template's lines. */
static uint64_t words[WORDS];
static uint32_t totals[WORDS];

static const char *const REFUSALS[] = {
    [QUENHOVACH_LEND] = "the template is longer than 65,536 bytes",
    [QUENHOVACH_SPENT] = "the step budget is used up",
    [QUENHOVACH_ROOM] = "no room for",
    [QUENHOVACH_UNCLOSED] = "the template ends inside",
    [QUENHOVACH_NAME] = "define, pushdef or copydef of what is not a name",
    [QUENHOVACH_NUMBER] = "not a number, or a number outside its range",
    [QUENHOVACH_EXPRESSION] = "eval cannot read its expression",
    [QUENHOVACH_DIVISOR] = "eval: division by zero, or a shift by less than 0 or more than 31",
    [QUENHOVACH_MARK] = "a bad quote or comment mark",
    [QUENHOVACH_NO_TEXT] = "defn of a predefined macro, or of a copy of one",
    [QUENHOVACH_GONE] = "a call closes, and its name is not defined any more",
    [QUENHOVACH_DEEP] = "more than 64 open calls or 256 arguments",
    [QUENHOVACH_BAD_SET] = "a bad set",
    [QUENHOVACH_NO_ITEM] = "include of a file that is not named on the command line",
    [QUENHOVACH_NO_DEFINITION] = "copydef of a name that has no definition",
};

static const char *const BUFFERS[] = {
    [QUENHOVACH_BUFFER_PENDING] = "the pending text",
    [QUENHOVACH_BUFFER_CALLS] = "the open calls",
    [QUENHOVACH_BUFFER_DEFINITIONS] = "the definitions",
    [QUENHOVACH_BUFFER_STREAMS] = "the diverted text",
    [QUENHOVACH_BUFFER_WRAP] = "the wrap text",
    [QUENHOVACH_BUFFER_ERRORS] = "the error text",
    [QUENHOVACH_BUFFER_OUTPUT] = "the output",
};

static const char *const UNCLOSED[] = {
    [QUENHOVACH_UNCLOSED_QUOTE] = "a quote",
    [QUENHOVACH_UNCLOSED_COMMENT] = "a comment",
    [QUENHOVACH_UNCLOSED_CALL] = "a call",
};

static int complain(const char *name, const char *message)
{
    fprintf(stderr, "expand_file: %s: %s\n", name, message);
    return EXIT_FAILURE;
}

/* Reads the file to its end, or until the room is full. Gives 0 where a read fails. */
static int read_file(const char *name, uint8_t *bytes, size_t room, size_t *length)
{
    FILE *file = fopen(name, "rb");
    int good;

    if (file == NULL)
        return 0;
    *length = fread(bytes, 1, room, file);
    good = !ferror(file);
    fclose(file);
    return good;
}

/* A file's name behind the last slash. */
static const char *base_name(const char *path)
{
    const char *slash = strrchr(path, '/');

    return slash == NULL ? path : slash + 1;
}

/* Makes a set of these files. Gives the name of the first that can't be read or does not fit, or null. */
static const char *make_set(struct set *set, char **names, const char **message)
{
    const char *name;
    size_t length;

    set_begin(set, set_bytes, sizeof set_bytes);
    for (; *names != NULL; names++) {
        *message = "the file could not be read";
        if (!read_file(*names, included, sizeof included, &length))
            return *names;
        *message = "the files to include have too many bytes";
        name = base_name(*names);
        if (!set_add(set, name, strlen(name), included, length))
            return *names;
    }
    return NULL;
}

/* Tells line and column of a place, both counted from 1, the column in bytes. A template that is too long has neither. */
static void tell_place(size_t length, uint32_t place)
{
    uint64_t line, start;

    if (quenhovach_lines_build(text, length, words, WORDS, totals, WORDS) == 0 &&
        quenhovach_lines_line_of(length, words, WORDS, totals, WORDS, place, &line) == 0 &&
        quenhovach_lines_start_of(length, words, WORDS, totals, WORDS, line, &start) == 0)
        fprintf(stderr, "%lu:%lu:", (unsigned long)line, (unsigned long)(place - start + 1));
}

static const char *detail_name(const uint32_t report[QUENHOVACH_REPORT_LENGTH])
{
    uint32_t detail = report[QUENHOVACH_REPORT_DETAIL];

    switch (report[QUENHOVACH_REPORT_NUMBER]) {
    case QUENHOVACH_ROOM:
        return BUFFERS[detail];
    case QUENHOVACH_UNCLOSED:
        return UNCLOSED[detail];
    default:
        return "";
    }
}

static int tell_refusal(const char *name, size_t length, const uint32_t report[QUENHOVACH_REPORT_LENGTH])
{
    uint32_t number = report[QUENHOVACH_REPORT_NUMBER];
    uint32_t place = report[QUENHOVACH_REPORT_PLACE];
    const char *detail = detail_name(report);

    fprintf(stderr, "expand_file: %s:", name);
    tell_place(length, place);
    fprintf(stderr, " no sheet: %s%s%s (answer %lu %lu, after %lu steps and %lu bytes)\n", REFUSALS[number], *detail ? " " : "", detail,
            (unsigned long)number, (unsigned long)report[QUENHOVACH_REPORT_DETAIL], (unsigned long)report[QUENHOVACH_REPORT_STEPS],
            (unsigned long)place);
    return EXIT_FAILURE;
}

int main(int argc, char **argv)
{
    uint32_t report[QUENHOVACH_REPORT_LENGTH];
    struct set set;
    const char *failed, *message;
    size_t length;
    uint32_t number;

    if (argc < 2) {
        fprintf(stderr, "usage: expand_file FILE [INCLUDED]...\n");
        return EXIT_FAILURE;
    }
    if (!read_file(argv[1], text, sizeof text, &length))
        return complain(argv[1], "the file could not be read");
    failed = make_set(&set, argv + 2, &message);
    if (failed != NULL)
        return complain(failed, message);
    number = quenhovach_expand(text, length, set.bytes, set.length, pending, sizeof pending, calls, sizeof calls, definitions,
                               sizeof definitions, streams, sizeof streams, wrap, sizeof wrap, errors, sizeof errors, output, sizeof output,
                               BUDGET, report);
    if (number != QUENHOVACH_DONE && number != QUENHOVACH_EXIT)
        return tell_refusal(argv[1], length, report);
    fwrite(errors, 1, report[QUENHOVACH_REPORT_ERRORS], stderr);
    if (fwrite(output, 1, report[QUENHOVACH_REPORT_OUTPUT], stdout) != report[QUENHOVACH_REPORT_OUTPUT] || fflush(stdout) != 0)
        return complain(argv[1], "the sheet could not be written");
    return (int)report[QUENHOVACH_REPORT_DETAIL];
}
