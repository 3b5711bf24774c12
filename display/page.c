/* Text that is made as a whole before any of it is written. */
#include "page.h"

#include <stdarg.h>
#include <stdio.h>
#include <stdlib.h>

void page_add(struct page *page, const char *format, ...)
{
    size_t left = PAGE_ROOM - page->used;
    va_list values;
    va_start(values, format);
    int added = vsnprintf(page->text + page->used, left, format, values);
    va_end(values);
    if (added < 0 || (size_t)added >= left)
        abort();
    page->used += (size_t)added;
}
