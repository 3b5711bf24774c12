/* Refusals in words. */
#ifndef REFUSAL_H
#define REFUSAL_H

#include <stdint.h>

/* What a refused call answered, and the line's trains, by which the place of a passenger field is
 * told as two stations. */
struct refusal {
    uint32_t number;
    uint64_t place;
    uint32_t trains;
};

/* The stations where the passengers of a field board and leave. */
struct pair {
    uint32_t board, leave;
};

struct pair pair_of_field(uint32_t m, uint64_t field);

/* Number, place and reason on one line, of at most 70 columns: what fits behind a frame's title. */
#define REFUSAL_ROOM 71
void refusal_words(char words[REFUSAL_ROOM], const struct refusal *refusal);

#endif
