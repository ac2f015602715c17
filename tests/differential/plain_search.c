/* The driver of plain_search.py. It reads cases, 'BUDGET L1 .. L7 TEXT SET' with the seven lent lengths and those of text and set, a newline, and the bytes of
 * text and set; makes each call in buffers that hold the same noise every time; and writes a line: what was returned, the six numbers of the report, and a
 * number of all that the buffers hold then, with some bytes behind them. The written output and error text are part of that. */
#include <inttypes.h>
#include <stdio.h>
#include <string.h>

#include "quenhovach.h"

enum { BEHIND = 16, BUFFERS = 7 };

static uint8_t text[QUENHOVACH_MAX_LENGTH], set[QUENHOVACH_MAX_SET_LENGTH];
static uint8_t lent[BUFFERS][QUENHOVACH_MAX_LENGTH + BEHIND];

/* Whether all bytes of a text or set were read; `most` is the room for them. */
static int all_read(uint8_t *bytes, size_t length, size_t most)
{
    return length <= most && fread(bytes, 1, length, stdin) == length;
}

static void fill(size_t buffer, size_t length)
{
    for (size_t i = 0; i < length + BEHIND; i++)
        lent[buffer][i] = (uint8_t)(i * 7 + buffer + 1);
}

/* FNV-1a by words of eight bytes, which goes on with what a buffer holds; the bytes behind it are more than a word. */
static uint64_t summed(uint64_t sum, size_t buffer, size_t length)
{
    for (size_t i = 0; i < length + BEHIND / 2; i += sizeof sum) {
        uint64_t word;
        memcpy(&word, lent[buffer] + i, sizeof word);
        sum = (sum ^ word) * UINT64_C(1099511628211);
    }
    return sum;
}

int main(void)
{
    uint32_t budget, report[QUENHOVACH_REPORT_LENGTH];
    while (scanf("%" SCNu32, &budget) == 1) {
        size_t n[BUFFERS + 2];
        for (size_t i = 0; i < BUFFERS + 2; i++)
            if (scanf("%zu", &n[i]) != 1 || (i < BUFFERS && n[i] > QUENHOVACH_MAX_LENGTH))
                return 1;
        if (getchar() != '\n' || !all_read(text, n[BUFFERS], sizeof text) || !all_read(set, n[BUFFERS + 1], sizeof set))
            return 1;
        for (size_t i = 0; i < BUFFERS; i++)
            fill(i, n[i]);
        uint32_t returned = quenhovach_expand(text, n[7], set, n[8], lent[0], n[0], lent[1], n[1], lent[2], n[2], lent[3], n[3], lent[4], n[4],
                                              lent[5], n[5], lent[6], n[6], budget, report);
        uint64_t sum = UINT64_C(14695981039346656037);
        for (size_t i = 0; i < BUFFERS; i++)
            sum = summed(sum, i, n[i]);
        printf("%" PRIu32, returned);
        for (int i = 0; i < QUENHOVACH_REPORT_LENGTH; i++)
            printf(" %" PRIu32, report[i]);
        printf(" %016" PRIx64 "\n", sum);
    }
    return 0;
}
