/* Oblachura: whether each train of a line waits for its late feeder, for programs in C.
 *
 * Four calls: read and write a sheet, plan its line, report one train's new source delay. Each
 * answers any bytes and any numbers, returns 0 or the number of a refusal, and stores the answer's
 * numbers in the list `answer`:
 *
 *   oblachura_read      number, place, trains m, period T
 *   oblachura_write     number, place, length of the sheet in bytes
 *   oblachura_plan      number, place, total delay in passenger-minutes
 *   oblachura_report    number, place, total delay in passenger-minutes
 *
 * Accepted: the call returns 0, and number and place are 0. Refused: the call returns the number,
 * and what follows number and place is 0. Only if `answer` itself has another length than these 4
 * or 3 is it not written, nor anything else: the call then returns 10.
 *
 * When the return is not 0, never paint from the buffers. On 10 they still hold what they held,
 * perhaps an older plan; on any other refusal of plan or report all decisions are OBLACHURA_BLANK
 * and all delays 0.
 *
 * Trains, stations, passenger fields and rows count from 1, elements of a list from 0: train i has
 * element i - 1. After an accepted plan the first m elements of decisions and delays are the
 * line's; m is what read answers, or sheet[0] >> 1. What follows them is 0.
 *
 * What the caller owes:
 *   - a pointer is followed by the number of its elements, not of its bytes;
 *   - that many elements are there, aligned as their type is; where the number is 0 the pointer is
 *     not looked at;
 *   - two lists of one call do not overlap, unless both are const; a list that a call writes is
 *     used by no other call meanwhile.
 * Nothing else: lists of a wrong length and numbers out of range are refused. Cells, decisions and
 * delays need no clearing before a plan, nor a sheet before it is written. Sheet and cells belong
 * together: lend a report those that the last accepted plan or report left, and after any other
 * change of the sheet plan anew. On other cells a report's answer is fixed too, but need not be
 * that of a plan.
 *
 * What the caller gets: no memory is taken, no file is touched, no pointer is kept after the call,
 * and there is no global state. A call was measured to stay below OBLACHURA_STACK bytes of stack.
 *
 * To link: cc -Iinclude program.c target/staticlib/liboblachura.a, for x86-64 Linux; `make archive`
 * builds the archive. It needs memcpy and memset, and nothing else.
 *
 * Sheet, rules and refusals are those of the customer's document 01. The functions are proved to
 * keep crates/oblachura/specs; this header is not proved, but tests/boundary calls through it. */
#ifndef OBLACHURA_H
#define OBLACHURA_H

#include <stddef.h>
#include <stdint.h>

#ifdef __cplusplus
extern "C" {
#endif

/* Sizes, in elements. */
#define OBLACHURA_TRAINS 64       /* most trains of a line: decisions, delays and read's lists */
#define OBLACHURA_PAIRS 2080      /* pairs of stations of 64 trains: read's passengers */
#define OBLACHURA_CELLS 4096      /* working cells; cell (k, l) is element 64 (k - 1) + (l - 1) */
#define OBLACHURA_SHEET 3907      /* bytes of the longest sheet: what write is lent */
#define OBLACHURA_ANSWER 3        /* numbers that write, plan and report store */
#define OBLACHURA_READ_ANSWER 4   /* numbers that read stores */

#define OBLACHURA_STACK 131072    /* bytes of stack */

/* Decisions. Train 1 has no feeder to wait for: its byte of an accepted plan is 0. */
#define OBLACHURA_GO 0            /* departs on time */
#define OBLACHURA_KEEP 1          /* waits for its feeder */
#define OBLACHURA_BLANK 2         /* none: the plan or the report was refused */

/* The numbers of refusal, by their first place in the order of checking. The place that comes with
 * a number is 0 where none is named. */
enum oblachura_refusal {
    OBLACHURA_ACCEPTED = 0,
    OBLACHURA_LENGTH = 10,        /* A lent list has another length than stated. */
    OBLACHURA_SHORT = 1,          /* The sheet is under 3 bytes, or shorter than m demands. */
    OBLACHURA_TRAIN_COUNT = 2,    /* The line has no train, or over 64. */
    OBLACHURA_PERIOD = 3,         /* The period is 0, or over 1,440 minutes. */
    OBLACHURA_LONG = 4,           /* The sheet is longer than m demands. */
    OBLACHURA_DEPARTURE = 5,      /* A departure is over 2,879; place: the train. */
    OBLACHURA_DRIVING = 13,       /* A driving time is over 1,023 (write only); place: the train. */
    OBLACHURA_DELAY = 6,          /* A source delay is over 1,440; place: the train. */
    OBLACHURA_SLACK = 7,          /* A train departs before its feeder arrives; place: the train. */
    OBLACHURA_PASSENGERS = 8,     /* A pair has over 10,000 passengers; place: its field. */
    OBLACHURA_FILLING = 9,        /* A bit behind the last field is not 0. */
    OBLACHURA_NO_SUCH_TRAIN = 11, /* The reported train is 0, or over m. */
    OBLACHURA_CELL = 12           /* A cell in use, in a row after the reported train, is over
                                     1,916,928,000,000; place: the first such row. */
};

/* Reads a sheet.
 *   reads    sheet, all of its bytes and no more: their number is checked
 *   writes   accepted: departures, driving and delays (64 each) by train, passengers (2,080) by
 *            boarding and then by leaving station; the rest of each list 0. Refused: nothing.
 *            And answer (4)
 *   returns  0, or 10, 1, 2, 3, 4, 5, 6, 7, 8, 9 */
uint32_t oblachura_read(const uint8_t *sheet, size_t sheet_count,
                        uint32_t *departures, size_t departures_count,
                        uint32_t *driving, size_t driving_count,
                        uint32_t *delays, size_t delays_count,
                        uint32_t *passengers, size_t passengers_count,
                        uint64_t *answer, size_t answer_count);

/* Writes a sheet.
 *   reads    m, period, departures, driving and delays (m each, not 64), passengers (m(m+1)/2)
 *   writes   accepted: the sheet into the first bytes of sheet (3,907), the rest of it as it was.
 *            Refused: nothing. And answer (3)
 *   returns  0, or 10, 2, 3, 5, 13, 6, 7, 8 */
uint32_t oblachura_write(uint32_t m, uint32_t period,
                         const uint32_t *departures, size_t departures_count,
                         const uint32_t *driving, size_t driving_count,
                         const uint32_t *delays, size_t delays_count,
                         const uint32_t *passengers, size_t passengers_count,
                         uint8_t *sheet, size_t sheet_count,
                         uint64_t *answer, size_t answer_count);

/* Plans the line of a sheet.
 *   reads    sheet, as read does
 *   writes   accepted: the cells in use (of 4,096), decisions (64) and arrival delays (64) by
 *            train, the rest of both lists 0. Refused: decisions and delays blank, but on 10
 *            nothing. And answer (3)
 *   returns  0, or 10, 1, 2, 3, 4, 5, 6, 7, 8, 9 */
uint32_t oblachura_plan(const uint8_t *sheet, size_t sheet_count,
                        uint64_t *cells, size_t cells_count,
                        uint8_t *decisions, size_t decisions_count,
                        uint32_t *delays, size_t delays_count,
                        uint64_t *answer, size_t answer_count);

/* Reports that a train has another source delay now.
 *   reads    sheet, as read does, and cells (4,096)
 *   writes   accepted: the train's delay in the sheet, the cells in use of rows 1 to the train,
 *            decisions and delays as plan does. Refused: decisions and delays blank, but on 10
 *            nothing; sheet and cells as they were. And answer (3)
 *   returns  0, or 10, 1, 2, 3, 4, 5, 6, 7, 8, 9, 11, 12 */
uint32_t oblachura_report(uint8_t *sheet, size_t sheet_count,
                          uint32_t train, uint32_t delay,
                          uint64_t *cells, size_t cells_count,
                          uint8_t *decisions, size_t decisions_count,
                          uint32_t *delays, size_t delays_count,
                          uint64_t *answer, size_t answer_count);

#ifdef __cplusplus
}
#endif

#endif
