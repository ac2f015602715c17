/* The driver of set_runs.py. It reads runs, 'BUDGET TEXT SET' with the lengths of text and set, a newline, and their bytes; expands each text with its set in
 * all the room that may be lent; and writes the six numbers of the report, a newline, and the output. */
#include <inttypes.h>
#include <stdio.h>

#include "quenhovach.h"

static uint8_t text[QUENHOVACH_MAX_LENGTH], set[QUENHOVACH_MAX_SET_LENGTH];
static uint8_t lent[7][QUENHOVACH_MAX_LENGTH];

/* Whether all bytes of a text or set were read; `most` is the room for them. */
static int all_read(uint8_t *bytes, size_t length, size_t most)
{
    return length <= most && fread(bytes, 1, length, stdin) == length;
}

int main(void)
{
    uint32_t budget, report[QUENHOVACH_REPORT_LENGTH];
    size_t text_len, set_len;
    while (scanf("%" SCNu32 " %zu %zu", &budget, &text_len, &set_len) == 3) {
        if (getchar() != '\n' || !all_read(text, text_len, sizeof text) || !all_read(set, set_len, sizeof set))
            return 1;
        quenhovach_expand(text, text_len, set, set_len, lent[0], sizeof lent[0], lent[1], sizeof lent[1], lent[2], sizeof lent[2], lent[3],
                          sizeof lent[3], lent[4], sizeof lent[4], lent[5], sizeof lent[5], lent[6], sizeof lent[6], budget, report);
        for (int i = 0; i < QUENHOVACH_REPORT_LENGTH; i++)
            printf("%" PRIu32 "%c", report[i], i + 1 < QUENHOVACH_REPORT_LENGTH ? ' ' : '\n');
        fwrite(lent[6], 1, report[QUENHOVACH_REPORT_OUTPUT], stdout);
    }
    return 0;
}
