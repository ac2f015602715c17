#include "set.h"

/* The kinds that end a set and begin an item, the most bytes of a chunk, and the bytes of an item before its first chunk. */
enum { END = 0, BEGIN = 129, CHUNK = 128, HEAD = 9 };

void set_begin(struct set *set, uint8_t *bytes, size_t room)
{
    set->bytes = bytes;
    set->length = 1;
    set->room = room;
    bytes[0] = END;
}

static void put(struct set *set, size_t byte)
{
    set->bytes[set->length++] = (uint8_t)byte;
}

/* 32 bits, least byte first. */
static void put_length(struct set *set, size_t length)
{
    int shift;

    for (shift = 0; shift < 32; shift += 8)
        put(set, length >> shift & 255);
}

/* Whether an item with these lengths fits behind what is there. No sum can wrap: each length is compared with the room first. */
static int fits(const struct set *set, size_t name_length, size_t text_length)
{
    size_t joined;

    if (name_length > set->room || text_length > set->room || set->room > UINT32_MAX)
        return 0;
    joined = name_length + text_length;
    return set->length + HEAD + joined + (joined + CHUNK - 1) / CHUNK <= set->room;
}

int set_add(struct set *set, const void *name, size_t name_length, const void *text, size_t text_length)
{
    const uint8_t *names = name, *texts = text;
    size_t joined = name_length + text_length;
    size_t i;

    if (!fits(set, name_length, text_length))
        return 0;
    set->length--;
    put(set, BEGIN);
    put_length(set, name_length);
    put_length(set, text_length);
    for (i = 0; i < joined; i++) {
        if (i % CHUNK == 0)
            put(set, joined - i < CHUNK ? joined - i : CHUNK);
        put(set, i < name_length ? names[i] : texts[i - name_length]);
    }
    put(set, END);
    return 1;
}
