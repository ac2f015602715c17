/* The driver of lines_cost.py. It reads questions, 'FUNCTION LENGTH EVERY NUMBER', makes the text of this length in which every so many-th byte is a
 * newline (none if 0), builds its index, asks the function for this place or line, and writes the answer and the line or start. All room is lent every time. */
#include <inttypes.h>
#include <stdio.h>
#include <string.h>

#include "quenhovach.h"

#define ALL QUENHOVACH_LINES_WORDS(QUENHOVACH_MAX_LENGTH)

static uint8_t text[QUENHOVACH_MAX_LENGTH];
static uint64_t words[ALL];
static uint32_t totals[ALL];

static uint32_t built(size_t length, size_t every)
{
    for (size_t i = 0; i < length; i++)
        text[i] = every != 0 && (i + 1) % every == 0 ? '\n' : 'x';
    return quenhovach_lines_build(text, length, words, ALL, totals, ALL);
}

int main(void)
{
    char function[16];
    size_t length, every;
    uint64_t number;
    while (scanf("%15s %zu %zu %" SCNu64, function, &length, &every, &number) == 4) {
        uint64_t value = 0;
        uint32_t answer = built(length, every);
        if (strcmp(function, "line_of") == 0)
            answer = quenhovach_lines_line_of(length, words, ALL, totals, ALL, (size_t)number, &value);
        else if (strcmp(function, "start_of") == 0)
            answer = quenhovach_lines_start_of(length, words, ALL, totals, ALL, number, &value);
        printf("%" PRIu32 " %" PRIu64 "\n", answer, value);
    }
    return 0;
}
