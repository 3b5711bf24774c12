/* Lent lists between two untouchable pages, each with a twin for the paper side. */
#ifndef LENT_H
#define LENT_H

#include <stdbool.h>
#include <stddef.h>
#include <stdint.h>

/* The room is all that may be touched; the twin is as large and holds what is expected of it, the
 * bytes outside the list too. */
struct lent {
    size_t width;                    /* bytes of an element */
    size_t bytes;                    /* of the room, a number of whole pages */
    uint8_t *room, *twin;
    size_t offset, count;            /* where in the room the list lies, and its elements */
    void *at, *twin_at;              /* the pointers to lend */
};

struct lent_difference {
    bool found, outside;
    size_t index;                    /* of the element, or of the room's byte if outside */
    uint64_t expected, got;
};

/* Makes the pages, once, with room for the elements. */
void lent_make(struct lent *list, size_t width, size_t elements);

/* Lays a list into the room, flush to one of its ends, and the same into the twin. A list of no
 * elements gets a pointer that must not be followed. */
void lent_lay(struct lent *list, size_t count, const void *contents);

/* Forbids or allows writing into the room. */
void lent_write_protect(struct lent *list, bool protect);

/* The first byte of the room that is not as in the twin. */
struct lent_difference lent_compare(const struct lent *list);

/* Whether an address lies in the list's pages, the untouchable ones included. Safe in a handler. */
bool lent_holds(const struct lent *list, const void *address);

#endif
