/* One call of the archive beside the paper side, with everything compared afterwards. */
#ifndef CALLS_H
#define CALLS_H

#include "oblachura.h"
#include "paper.h"
#include "sheets.h"

#include <stdbool.h>
#include <stddef.h>
#include <stdint.h>

enum operation { READ, WRITE, PLAN, REPORT, OPERATIONS };
enum list { SHEET, DEPARTURES, DRIVING, DELAYS, PASSENGERS, CELLS, DECISIONS, ANSWER, LISTS };

/* The longest lists that are tried, in elements. */
#define TRAIN_ROOM 1024
#define PAIR_ROOM 3072
#define CELL_ROOM 4608
#define DECISION_ROOM 1024
#define ANSWER_ROOM 16

/* What the lists hold before a call and, once it is compared, after it. */
struct desk {
    uint8_t sheet[SHEET_ROOM];
    uint32_t departures[TRAIN_ROOM], driving[TRAIN_ROOM], delays[TRAIN_ROOM];
    uint32_t passengers[PAIR_ROOM];
    uint64_t cells[CELL_ROOM];
    uint8_t decisions[DECISION_ROOM];
    uint64_t answer[ANSWER_ROOM];
};

extern struct desk desk;

struct call {
    enum operation operation;
    uint32_t first, second;          /* write: m and period; report: train and delay */
    size_t count[LISTS];             /* of the lists that the operation has */
    bool one_list;                   /* write: the three lists by train are one and the same */
};

/* What was asked for and what was counted. */
struct tally {
    uint64_t seed, most_calls, calls;
    bool brief;                      /* a difference is expected, and told in one line */
    uint64_t by_outcome[OPERATIONS][PAPER_OUTCOMES];
    uint64_t by_trains[OPERATIONS][128];             /* accepted, by the sheet's m */
};

extern struct tally tally;

/* The status of a program that ends on a difference told in brief. */
#define CAUGHT 3

const char *operation_name(enum operation operation);
const char *list_name(enum list list);
bool has_list(enum operation operation, enum list list);
size_t list_room(enum list list);

/* Whether a row of 01's table is among the operation's. */
bool can_give(enum operation operation, enum paper_outcome outcome);

/* Makes the pages of all lists and the handlers of signals. */
void calls_begin(void);

/* A call whose lists all have the lengths stated in the header, but for the sheet's. */
struct call right_call(enum operation operation, size_t sheet_count);

/* A write of m trains, its lists as long as m demands. */
struct call right_write(uint32_t m, uint32_t period);

/* Noise into the lists that the operation writes and does not read, so that nothing on the desk
 * could be thought to have been written by the call. */
void scribble_outputs(enum operation operation);

/* Lays a line on the desk for the operation, as a sheet or as write's lists, beside noise. The call
 * has the right lengths; a report's train, delay and cells are still to be laid. */
struct call lay(enum operation operation, const struct paper_line *line);

/* Makes the call on both sides from what the desk holds, compares all that it returns and stores,
 * and leaves the result on the desk. Ends the program at a difference. */
struct paper_verdict make_call(const struct call *call);

/* Tells a difference in what the last call left, and ends the program. */
_Noreturn void differ(const char *what, size_t index, uint64_t expected, uint64_t got);

#endif
