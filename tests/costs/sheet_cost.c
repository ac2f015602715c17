/* The driver of sheet_cost.py. It reads questions, 'TEXT NAME' with their lengths, a newline, and their bytes; reads the text as a sheet, asks that for the name,
 * and writes the answer, the bad line, the count of lines and the line that was found. */
#include <inttypes.h>
#include <stdio.h>

#include "quenhovach.h"

static uint8_t text[QUENHOVACH_MAX_LENGTH], name[QUENHOVACH_MAX_LENGTH];
static quenhovach_sheet sheet;

static int all_read(uint8_t *bytes, size_t length)
{
    return length <= QUENHOVACH_MAX_LENGTH && fread(bytes, 1, length, stdin) == length;
}

int main(void)
{
    size_t text_len, name_len;
    while (scanf("%zu %zu", &text_len, &name_len) == 2) {
        uint32_t line;
        if (getchar() != '\n' || !all_read(text, text_len) || !all_read(name, name_len))
            return 1;
        uint32_t answer = quenhovach_sheet_read(text, text_len, &sheet, &line);
        size_t found = quenhovach_sheet_find(&sheet, text, text_len, name, name_len);
        printf("%" PRIu32 " %" PRIu32 " %" PRIu64 " %zu\n", answer, line, sheet.count, found);
    }
    return 0;
}
