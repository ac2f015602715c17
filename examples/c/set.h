/* A set of texts that a template may include, made item by item in room that the caller lends. quenhovach.h has its form. */
#ifndef SET_H
#define SET_H

#include <stddef.h>
#include <stdint.h>

struct set {
    uint8_t *bytes; /* good to be lent at every moment, */
    size_t length;  /* with this length */
    size_t room;
};

/* Makes a set without an item. There is room for one byte at least; for more than QUENHOVACH_MAX_SET_LENGTH there is no use. */
void set_begin(struct set *set, uint8_t *bytes, size_t room);

/* Adds an item. Gives 0 where it does not fit, and the set is as it was. Of two items with one name the first counts, so one that is
 * added later is never included. */
int set_add(struct set *set, const void *name, size_t name_length, const void *text, size_t text_length);

#endif
