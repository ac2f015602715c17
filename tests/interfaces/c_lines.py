"""The index of lines from C: the source of a program that makes one call, and for each line of tests/lines.tsv what it is given and must write."""
import os

from places import ROOT

TABLE = os.path.join(ROOT, "tests", "lines.tsv")

# A call as the command line says: the function, the text's length, the place or line, the lent words, "/", the lent totals. A text is on standard
# input; none lent is a null pointer. Writes what came back, the line or start, and then what the words and totals hold.
CALLER = r"""
#include "quenhovach.h"
#include <stdio.h>
#include <stdlib.h>
#include <string.h>

static uint8_t text[QUENHOVACH_MAX_LENGTH + 1];
static uint64_t words[2000];
static uint32_t totals[2000];

int main(int argc, char **argv)
{
    uint64_t asked, value = 0;
    uint64_t *w;
    uint32_t *t;
    uint32_t number;
    size_t length, i, words_len = 0, totals_len = 0;
    int at = 4;

    if (argc < 5)
        return 2;
    for (; strcmp(argv[at], "/") != 0; at++)
        words[words_len++] = strtoul(argv[at], NULL, 10);
    for (at++; at < argc; at++)
        totals[totals_len++] = (uint32_t)strtoul(argv[at], NULL, 10);
    w = words_len == 0 ? NULL : words;
    t = totals_len == 0 ? NULL : totals;
    length = strtoul(argv[2], NULL, 10);
    asked = strtoul(argv[3], NULL, 10);
    if (strcmp(argv[1], "build") == 0) {
        if (fread(text, 1, sizeof text, stdin) != length)
            return 3;
        number = quenhovach_lines_build(text, length, w, words_len, t, totals_len);
    } else {
        value = 7; /* with a refusal 0 is written over it */
        number = argv[1][0] == 'l' ? quenhovach_lines_line_of(length, w, words_len, t, totals_len, asked, &value)
                                   : quenhovach_lines_start_of(length, w, words_len, t, totals_len, asked, &value);
    }
    printf("%lu %lu", (unsigned long)number, (unsigned long)value);
    for (i = 0; i < words_len; i++)
        printf(" %lu", (unsigned long)words[i]);
    printf(" /");
    for (i = 0; i < totals_len; i++)
        printf(" %lu", (unsigned long)totals[i]);
    return 0;
}
"""


def parts(field):
    """The parts of a field between commas; V*N is V repeated N times, - is none."""
    found = []
    for part in field.split(",") if field != "-" else []:
        value, _, times = part.partition("*")
        found += [value] * int(times or 1)
    return found


def numbers(words, totals):
    """The words, a slash, the totals, all in decimal."""
    return [str(int(word, 16)) for word in parts(words)] + ["/"] + parts(totals)


def cases():
    """Each line of the table: its label and what it shows, the words of the command line, standard input, standard output."""
    for line in open(TABLE, encoding="utf-8"):
        if line.startswith("#"):
            continue
        label, function, text, asked, words, totals, number, value, words_after, totals_after, shows = line.rstrip("\n").split("\t")
        given, length = b"", text
        if function == "build":
            given, asked = bytes.fromhex("".join(parts(text))), "0"
            length = str(len(given))
        told = [number, value] + numbers(words_after, totals_after)
        yield "%s, %s" % (label, shows), [function, length, asked] + numbers(words, totals), given, " ".join(told).encode()
