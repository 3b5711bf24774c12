/* The board as text. */
#ifndef FRAME_H
#define FRAME_H

#include "oblachura.h"
#include "page.h"
#include "refusal.h"

#include <stdbool.h>

/* What the board shows of a line. All of it is taken from the buffers of one accepted call; a
 * refusal only takes the plan away. */
struct shown {
    uint32_t trains;                            /* 0: no sheet was accepted yet */
    uint32_t period;
    uint32_t departures[OBLACHURA_TRAINS];
    uint32_t reported[OBLACHURA_TRAINS];
    bool planned;                               /* what follows belongs to those delays */
    uint8_t decisions[OBLACHURA_TRAINS];
    uint32_t departs_late[OBLACHURA_TRAINS];
    uint32_t arrives_late[OBLACHURA_TRAINS];
    uint64_t total;
};

/* What fits behind the title `command`. */
#define COMMAND_WIDTH 70

/* What became of the commands. */
struct news {
    uint32_t taken, refused, malformed;         /* reports, counted: none passes unseen */
    char command[COMMAND_WIDTH + 1];            /* the last one */
    char answer[REFUSAL_ROOM];                  /* to it, in words: the longest are a refusal's */
};

/* A frame: title, a row for each train, and at the foot, where a long board stays in sight, the
 * total and the news. No line is over 80 columns. */
void frame(struct page *page, const char *title, const struct shown *shown,
           const struct news *news);

#endif
