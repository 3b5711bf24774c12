/* Lent lists between two untouchable pages. */
#define _GNU_SOURCE
#include "lent.h"

#include "chance.h"

#include <stdio.h>
#include <stdlib.h>
#include <string.h>
#include <sys/mman.h>
#include <unistd.h>

static size_t page(void)
{
    return (size_t)sysconf(_SC_PAGESIZE);
}

static void give_up(const char *what)
{
    perror(what);
    exit(1);
}

void lent_make(struct lent *list, size_t width, size_t elements)
{
    size_t bytes = (width * elements + page() - 1) / page() * page();
    uint8_t *pages = mmap(NULL, bytes + 2 * page(), PROT_NONE, MAP_PRIVATE | MAP_ANONYMOUS, -1, 0);
    if (pages == MAP_FAILED)
        give_up("mmap");
    list->width = width;
    list->bytes = bytes;
    list->room = pages + page();
    list->twin = malloc(bytes);
    if (list->twin == NULL)
        give_up("malloc");
    lent_write_protect(list, false);
}

static void *unfollowable(const struct lent *list)
{
    switch (below(4)) {
    case 0: return list->room + list->bytes;
    case 1: return list->room - list->width;
    case 2: return list->room + list->bytes + 1;
    default: return NULL;
    }
}

void lent_lay(struct lent *list, size_t count, const void *contents)
{
    uint8_t pattern = (uint8_t)chance();
    size_t used = count * list->width;
    list->count = count;
    list->offset = one_in(2) ? 0 : list->bytes - used;
    memset(list->twin, pattern, list->bytes);
    if (count > 0)
        memcpy(list->twin + list->offset, contents, used);
    memcpy(list->room, list->twin, list->bytes);
    list->at = count > 0 ? list->room + list->offset : unfollowable(list);
    list->twin_at = count > 0 ? list->twin + list->offset : NULL;
}

void lent_write_protect(struct lent *list, bool protect)
{
    if (mprotect(list->room, list->bytes, protect ? PROT_READ : PROT_READ | PROT_WRITE) != 0)
        give_up("mprotect");
}

static uint64_t element(const uint8_t *bytes, size_t width)
{
    uint32_t narrow;
    uint64_t wide;
    if (width == 1)
        return *bytes;
    if (width == sizeof narrow) {
        memcpy(&narrow, bytes, sizeof narrow);
        return narrow;
    }
    memcpy(&wide, bytes, sizeof wide);
    return wide;
}

struct lent_difference lent_compare(const struct lent *list)
{
    struct lent_difference d = {false, false, 0, 0, 0};
    if (memcmp(list->room, list->twin, list->bytes) == 0)
        return d;
    size_t place = 0;
    while (list->room[place] == list->twin[place])
        place++;
    d.found = true;
    d.outside = place < list->offset || place >= list->offset + list->count * list->width;
    d.index = d.outside ? place : (place - list->offset) / list->width;
    size_t at = d.outside ? place : list->offset + d.index * list->width;
    d.expected = element(list->twin + at, d.outside ? 1 : list->width);
    d.got = element(list->room + at, d.outside ? 1 : list->width);
    return d;
}

bool lent_holds(const struct lent *list, const void *address)
{
    uintptr_t from = (uintptr_t)list->room - page();
    return (uintptr_t)address >= from && (uintptr_t)address - from < list->bytes + 2 * page();
}
