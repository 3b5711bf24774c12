/* A sheet and the numbers of its line, by the archive's read and write. */
#ifndef SHEET_H
#define SHEET_H

#include "oblachura.h"
#include "refusal.h"

#include <stdbool.h>
#include <stddef.h>

/* The numbers of a line; element 0 of a list is train 1, or the pair 1-2. */
struct line {
    uint32_t trains, period;
    uint32_t departures[OBLACHURA_TRAINS];
    uint32_t driving[OBLACHURA_TRAINS];
    uint32_t delays[OBLACHURA_TRAINS];
    uint32_t passengers[OBLACHURA_PAIRS];
};

/* A sheet has one byte of room more than the longest, so that a longer one is seen to be longer. */
struct sheet {
    uint8_t bytes[OBLACHURA_SHEET + 1];
    size_t count;
};

/* Each answers whether it was accepted; if not, `refusal` says why and nothing else is written. */
bool sheet_read(const struct sheet *sheet, struct line *line, struct refusal *refusal);
bool sheet_write(const struct line *line, struct sheet *sheet, struct refusal *refusal);

/* The trains that a sheet speaks of, whatever they are: the first 7 bits. */
uint32_t sheet_trains(const struct sheet *sheet);

#endif
