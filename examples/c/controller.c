/* controller FILE: takes its settings from the sheet that an m4 template writes, and says what they are.
 *
 * Three settings are asked for: the word `mast`, the decimal `sway_gain` and the number `frozen_after_ms`. The sheet may have others.
 *
 * Settings are taken whole or not at all. A template that is refused or ends itself by m4exit, an output that is no sheet, a setting that
 * is missing or of another kind: each is told on standard error, and the exit status is 1.
 */
#include <stdarg.h>
#include <stdio.h>
#include <stdlib.h>
#include <string.h>

#include "quenhovach.h"

#define BUDGET 16777216

struct settings {
    char mast[32];
    double sway_gain;
    int32_t frozen_after_ms;
};

/* One byte more than a text may have: a longer file is then refused by the expander, and never cut. */
static uint8_t text[QUENHOVACH_MAX_LENGTH + 1];

/* The template includes nothing. */
static const uint8_t no_items[] = {0};

static uint8_t pending[QUENHOVACH_MAX_LENGTH];
static uint8_t calls[QUENHOVACH_MAX_LENGTH];
static uint8_t definitions[QUENHOVACH_MAX_LENGTH];
static uint8_t streams[QUENHOVACH_MAX_LENGTH];
static uint8_t wrap[QUENHOVACH_MAX_LENGTH];
static uint8_t errors[QUENHOVACH_MAX_LENGTH];
static uint8_t output[QUENHOVACH_MAX_LENGTH];

static quenhovach_sheet sheet;
static uint32_t report[QUENHOVACH_REPORT_LENGTH];

/* The template's file, for messages. */
static const char *file_name;

/* Tells what is wrong, and gives 0. */
static int complain(const char *format, ...)
{
    va_list words;

    fprintf(stderr, "controller: %s: ", file_name);
    va_start(words, format);
    vfprintf(stderr, format, words);
    va_end(words);
    fputc('\n', stderr);
    return 0;
}

/* Reads the file to its end, or until the text is full. Gives 0 where a read fails. */
static int read_file(size_t *length)
{
    FILE *file = fopen(file_name, "rb");
    int good;

    if (file == NULL)
        return 0;
    *length = fread(text, 1, sizeof text, file);
    good = !ferror(file);
    fclose(file);
    return good;
}

/* A line of the output, for a message: the first 60 bytes of it, with ? for what is not printable ASCII. */
static const char *shown_line(uint32_t line)
{
    static char shown[61];
    size_t end = report[QUENHOVACH_REPORT_OUTPUT], at = 0, length = 0;

    for (; line > 1 && at < end; at++)
        line -= output[at] == '\n';
    for (; at < end && output[at] != '\n' && length < sizeof shown - 1; at++)
        shown[length++] = output[at] >= ' ' && output[at] <= '~' ? (char)output[at] : '?';
    shown[length] = '\0';
    return shown;
}

/* Tells why there is no sheet, and gives 0. */
static int tell_answer(uint32_t number)
{
    uint32_t detail = report[QUENHOVACH_REPORT_DETAIL];

    switch (number) {
    case QUENHOVACH_EXIT:
        return complain("the template ends itself by m4exit(%lu)", (unsigned long)detail);
    case QUENHOVACH_SHEET_MALFORMED:
        return complain("line %lu of the output is no setting: %s", (unsigned long)detail, shown_line(detail));
    case QUENHOVACH_SHEET_TWICE:
        return complain("line %lu of the output gives a setting again: %s", (unsigned long)detail, shown_line(detail));
    case QUENHOVACH_SHEET_TOO_MANY:
        return complain("the output has more than %d lines", QUENHOVACH_SHEET_LINES);
    default: /* expand_file.c tells these in words, with line and column */
        return complain("the template is refused after %lu bytes (answer %lu %lu)", (unsigned long)report[QUENHOVACH_REPORT_PLACE],
                        (unsigned long)number, (unsigned long)detail);
    }
}

/* The line of a setting of this kind. Gives null, and tells why, where the sheet has none. */
static const quenhovach_line *find(const char *name, uint64_t kind)
{
    static const char *const kinds[] = {"a number", "a decimal", "a word"};
    size_t line = quenhovach_sheet_find(&sheet, output, report[QUENHOVACH_REPORT_OUTPUT], (const uint8_t *)name, strlen(name));

    if (line == QUENHOVACH_SHEET_LINES) {
        complain("there is no setting %s", name);
        return NULL;
    }
    if (sheet.lines[line].kind != kind) {
        complain("%s is not %s", name, kinds[kind - QUENHOVACH_READING_NUMBER]);
        return NULL;
    }
    return &sheet.lines[line];
}

static int find_number(const char *name, int32_t *number)
{
    const quenhovach_line *line = find(name, QUENHOVACH_READING_NUMBER);

    if (line == NULL)
        return 0;
    *number = quenhovach_line_number(line);
    return 1;
}

static int find_decimal(const char *name, double *decimal)
{
    const quenhovach_line *line = find(name, QUENHOVACH_READING_DECIMAL);

    if (line == NULL)
        return 0;
    *decimal = quenhovach_line_decimal(line);
    return 1;
}

/* A word stands in the output. It is copied, and ended by a byte 0. */
static int find_word(const char *name, char *word, size_t room)
{
    const quenhovach_line *line = find(name, QUENHOVACH_READING_WORD);

    if (line == NULL)
        return 0;
    if (line->length >= room)
        return complain("%s is longer than %lu bytes", name, (unsigned long)(room - 1));
    memcpy(word, output + line->value, line->length);
    word[line->length] = '\0';
    return 1;
}

/* Expands the template, reads its sheet and takes the settings. Gives 0, and tells why, where that is not possible. */
static int take_settings(size_t length, struct settings *settings)
{
    uint32_t number = quenhovach_sheet_expand(text, length, no_items, sizeof no_items, pending, sizeof pending, calls, sizeof calls,
                                              definitions, sizeof definitions, streams, sizeof streams, wrap, sizeof wrap, errors,
                                              sizeof errors, output, sizeof output, BUDGET, report, &sheet);

    fwrite(errors, 1, report[QUENHOVACH_REPORT_ERRORS], stderr);
    if (number != QUENHOVACH_DONE)
        return tell_answer(number);
    return find_word("mast", settings->mast, sizeof settings->mast) && find_decimal("sway_gain", &settings->sway_gain) &&
           find_number("frozen_after_ms", &settings->frozen_after_ms);
}

static int tell_settings(const struct settings *settings)
{
    printf("mast %s: sway gain %g, a sensor frozen for %ld ms is distrusted\n", settings->mast, settings->sway_gain,
           (long)settings->frozen_after_ms);
    return fflush(stdout) == 0 || complain("the settings could not be written");
}

int main(int argc, char **argv)
{
    struct settings settings;
    size_t length;

    if (argc != 2) {
        fprintf(stderr, "usage: controller FILE\n");
        return EXIT_FAILURE;
    }
    file_name = argv[1];
    if (!read_file(&length)) {
        complain("the file could not be read");
        return EXIT_FAILURE;
    }
    return take_settings(length, &settings) && tell_settings(&settings) ? EXIT_SUCCESS : EXIT_FAILURE;
}
