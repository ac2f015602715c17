/* sheet_stack FUNCTION STACK: the driver of stack.py for the sheet. It makes one call in a thread with this much stack, below which nothing is accessible, of the text on
 * standard input: `expand` expands and reads it, `read` reads it, `find` reads it with ample stack, and asks in the thread for a name that no line has. Writes the
 * answer, the detail or bad line, the count of lines, and the line that was found. */
#include <inttypes.h>
#include <pthread.h>
#include <stdio.h>
#include <stdlib.h>
#include <string.h>

#include "quenhovach.h"

static uint8_t text[QUENHOVACH_MAX_LENGTH];
static size_t length;
static uint8_t lent[7][QUENHOVACH_MAX_LENGTH];
static quenhovach_sheet sheet;
static uint32_t report[QUENHOVACH_REPORT_LENGTH];
static size_t found = QUENHOVACH_SHEET_LINES;

static void *expand(void *nothing)
{
    static const uint8_t no_items[] = {0};
    quenhovach_sheet_expand(text, length, no_items, sizeof no_items, lent[0], sizeof lent[0], lent[1], sizeof lent[1], lent[2], sizeof lent[2],
                            lent[3], sizeof lent[3], lent[4], sizeof lent[4], lent[5], sizeof lent[5], lent[6], sizeof lent[6], 16777216, report,
                            &sheet);
    return nothing;
}

static void *read_text(void *nothing)
{
    report[0] = quenhovach_sheet_read(text, length, &sheet, &report[1]);
    return nothing;
}

static void *find(void *nothing)
{
    found = quenhovach_sheet_find(&sheet, text, length, (const uint8_t *)"no_such_name", 12);
    return nothing;
}

int main(int argc, char **argv)
{
    pthread_attr_t attributes;
    pthread_t thread;
    void *(*function)(void *) = read_text;
    if (argc != 3)
        return 2;
    length = fread(text, 1, sizeof text, stdin);
    if (strcmp(argv[1], "expand") == 0)
        function = expand;
    if (strcmp(argv[1], "find") == 0) {
        read_text(NULL);
        function = find;
    }
    pthread_attr_init(&attributes);
    if (pthread_attr_setstacksize(&attributes, strtoul(argv[2], NULL, 10)) != 0 || pthread_create(&thread, &attributes, function, NULL) != 0)
        return 3;
    pthread_join(thread, NULL);
    printf("%" PRIu32 " %" PRIu32 " %" PRIu64 " %zu\n", report[0], report[1], sheet.count, found);
    return 0;
}
