/* Text that is made as a whole before any of it is written. */
#ifndef PAGE_H
#define PAGE_H

#include <stddef.h>

#define PAGE_ROOM 65536

struct page {
    char text[PAGE_ROOM];
    size_t used;
};

/* Adds text as printf does. The longest page, a sheet of 64 trains as text, takes half of the
 * room; past it the program ends rather than write a page in part. */
__attribute__((format(printf, 2, 3)))
void page_add(struct page *page, const char *format, ...);

#endif
