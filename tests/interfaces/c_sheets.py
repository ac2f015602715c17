"""The sheet from C: the source of a program that makes one call, and for each line of tests/sheets.tsv what it is given and must write."""
import os

from places import ROOT

TABLE = os.path.join(ROOT, "tests", "sheets.tsv")
KINDS = {"number": 1, "decimal": 2, "word": 3}

# A call as the command line says. `read LENGTH` and `sheet LENGTH` and seven lengths have the text on standard input; `question LENGTH LENGTH COUNT` and five
# words for each line have text and name there. Writes the numbers, the reading of the line that was found or the lines as the table has them, and in
# hexadecimal the output and the error text. Where a line behind the sheet's count is not as it has to be, the exit status is 4.
CALLER = r"""
#include "quenhovach.h"
#include <stdio.h>
#include <stdlib.h>
#include <string.h>

static uint8_t text[2 * QUENHOVACH_MAX_LENGTH];
static uint8_t buffers[7][QUENHOVACH_MAX_LENGTH + 1];
static quenhovach_sheet sheet;

static void write_reading(const quenhovach_line *line)
{
    double decimal;
    uint64_t bits;

    if (line->kind == QUENHOVACH_READING_NUMBER) {
        printf("number %ld", (long)quenhovach_line_number(line));
    } else if (line->kind == QUENHOVACH_READING_DECIMAL) {
        decimal = quenhovach_line_decimal(line);
        memcpy(&bits, &decimal, sizeof bits);
        printf("decimal %016lx", (unsigned long)bits);
    } else {
        printf("word %lu+%lu", (unsigned long)line->value, (unsigned long)line->length);
    }
}

/* The lines of the sheet. Gives the exit status. */
static int write_sheet(void)
{
    static const quenhovach_line unused = {0, 0, 1, 0, 0};
    size_t i;

    if (sheet.count == 0)
        printf("[]");
    for (i = 0; i < sheet.count; i++) {
        printf("%s%lu+%lu ", i == 0 ? "" : ";", (unsigned long)sheet.lines[i].name, (unsigned long)sheet.lines[i].name_length);
        write_reading(&sheet.lines[i]);
    }
    for (; i < QUENHOVACH_SHEET_LINES; i++)
        if (memcmp(&sheet.lines[i], &unused, sizeof unused) != 0)
            return 4;
    return 0;
}

static void write_bytes(const uint8_t *bytes, size_t count)
{
    size_t i;

    printf(" ");
    for (i = 0; i < count; i++)
        printf("%02x", bytes[i]);
}

static int read_text(size_t length)
{
    uint32_t number, line = 7;

    number = quenhovach_sheet_read(text, length, &sheet, &line);
    printf("%lu %lu ", (unsigned long)number, (unsigned long)line);
    return write_sheet();
}

static int expand_text(size_t length, char **lengths)
{
    static const uint8_t no_items[] = {0};
    uint32_t report[QUENHOVACH_REPORT_LENGTH];
    uint32_t number;
    size_t n[7];
    int i, status;

    for (i = 0; i < 7; i++)
        n[i] = strtoul(lengths[i], NULL, 10);
    number = quenhovach_sheet_expand(text, length, no_items, 1, buffers[0], n[0], buffers[1], n[1], buffers[2], n[2], buffers[3], n[3], buffers[4], n[4],
                                     buffers[5], n[5], buffers[6], n[6], 16777216, report, &sheet);
    if (number != report[QUENHOVACH_REPORT_NUMBER])
        return 5;
    for (i = 0; i < QUENHOVACH_REPORT_OUTPUT; i++)
        printf("%lu ", (unsigned long)report[i]);
    status = write_sheet();
    write_bytes(buffers[6], report[QUENHOVACH_REPORT_OUTPUT]);
    write_bytes(buffers[5], report[QUENHOVACH_REPORT_ERRORS]);
    return status;
}

static int ask(size_t length, size_t name_length, size_t count, char **words)
{
    size_t line, i;

    sheet.count = count;
    for (i = 0; i < 5 * count; i++)
        ((uint64_t *)sheet.lines)[i] = strtoul(words[i], NULL, 10);
    line = quenhovach_sheet_find(&sheet, text, length, text + length, name_length);
    if (line == QUENHOVACH_SHEET_LINES)
        printf("absent");
    else
        write_reading(&sheet.lines[line]);
    return 0;
}

int main(int argc, char **argv)
{
    size_t length;

    if (argc < 3)
        return 2;
    memset(&sheet, 0xa5, sizeof sheet);
    length = strtoul(argv[2], NULL, 10);
    if (fread(text, 1, sizeof text, stdin) < length)
        return 3;
    if (strcmp(argv[1], "read") == 0)
        return read_text(length);
    if (strcmp(argv[1], "sheet") == 0)
        return expand_text(length, argv + 3);
    return ask(length, strtoul(argv[3], NULL, 10), strtoul(argv[4], NULL, 10), argv + 5);
}
"""


def unhex(field):
    return b"" if field == "-" else bytes.fromhex(field)


def reading_words(reading):
    """Kind, value and length of a reading."""
    kind, value = reading.split(" ")
    words = [KINDS[kind]] + {"number": lambda: [int(value) % 2**32, 0], "decimal": lambda: [int(value, 16), 0],
                             "word": lambda: [int(part) for part in value.split("+")]}[kind]()
    return [str(word) for word in words]


def line_words(line):
    """The five words of a line."""
    name, reading = line.split(" ", 1)
    return name.split("+") + reading_words(reading)


def cases():
    """Each line of the table: its label and what it shows, the words of the command line, standard input, standard output."""
    for line in open(TABLE, encoding="utf-8"):
        if line.startswith("#"):
            continue
        label, function, text, lent, name, *numbers, output, errors, sheet, shows = line.rstrip("\n").split("\t")
        given, told = unhex(text), "[]" if sheet == "none" else sheet
        words = [function, str(len(given))]
        if function == "read":
            told = " ".join(numbers[:2] + [told])
        elif function == "sheet":
            words += lent.split(",")
            told = " ".join(numbers + [told, unhex(output).hex(), unhex(errors).hex()])
        else:
            lines = [] if lent == "[]" else lent.split(";")
            words += [str(len(unhex(name))), str(len(lines))] + [word for line in lines for word in line_words(line)]
            given += unhex(name)
        yield "%s, %s" % (label, shows), words, given, told.encode()
