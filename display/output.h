/* The one place that writes to standard output. */
#ifndef OUTPUT_H
#define OUTPUT_H

#include "page.h"

#include <stdbool.h>

/* Writes all bytes; false, with errno, if that failed. */
bool output_bytes(const void *bytes, size_t count);

/* How frames are written: on a terminal each takes the place of the one before, on the screen and
 * in what can be scrolled back to; elsewhere they follow each other, an empty line after each. */
struct screen {
    bool clears;
    bool prompts;       /* somebody types the commands on a terminal */
};

struct screen screen_of_output(void);

/* Writes a frame; after the last one there is no prompt. */
bool screen_paint(struct screen screen, const struct page *frame, bool last);

#endif
