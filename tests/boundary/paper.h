/* The paper side of the boundary test: document 01's four operations as C sees them, worked out in
 * the most obvious way and from 01 alone, so that the archive can be compared with the paper. Two
 * things that 01 leaves open are the header's: the list for the answer is looked at first of all,
 * and read stores four numbers.
 *
 * Trains and stations count from 1, and so do the arrays of a line; train i leaves station i.
 * Numbers of 01 stand here and in paper.c as 01 prints them, not as the header names them. */
#ifndef PAPER_H
#define PAPER_H

#include <stddef.h>
#include <stdint.h>

/* "The line and its numbers". */
struct paper_line {
    uint32_t m, period;
    uint32_t departure[65], driving[65], source[65];
    uint32_t passengers[65][66];     /* by boarding and by leaving station */
};

/* "Numbers of refusal": every row of the table, those of one number kept apart. */
enum paper_outcome {
    PAPER_ACCEPTED,
    PAPER_LENGTH_ANSWER,             /* 10, the list for the answer: nothing at all is written */
    PAPER_LENGTH_BUFFER,             /* 10, another lent buffer */
    PAPER_SHORT_START,               /* 1, under 3 bytes */
    PAPER_TRAIN_COUNT,               /* 2 */
    PAPER_PERIOD,                    /* 3 */
    PAPER_LENGTH_LISTS,              /* 10, a list lent to write */
    PAPER_SHORT_FOR_M,               /* 1, shorter than m demands */
    PAPER_LONG,                      /* 4 */
    PAPER_DEPARTURE,                 /* 5 */
    PAPER_DRIVING,                   /* 13 */
    PAPER_DELAY_SHEET,               /* 6, in the sheet or in write's list */
    PAPER_SLACK,                     /* 7 */
    PAPER_PASSENGERS,                /* 8 */
    PAPER_FILLING,                   /* 9 */
    PAPER_NO_SUCH_TRAIN,             /* 11 */
    PAPER_DELAY_REPORTED,            /* 6, the reported delay */
    PAPER_CELL,                      /* 12 */
    PAPER_OUTCOMES
};

struct paper_verdict {
    enum paper_outcome outcome;
    uint64_t place;
};

/* The number that 01 gives to an outcome; 0 is accepted. */
uint32_t paper_number(enum paper_outcome outcome);

/* Plausible mistakes. With one of them in paper_wrong the paper side makes it, and the comparison
 * has to show a difference; paper_mistakes holds their names. */
enum paper_mistake {
    PAPER_RIGHT,
    T_CHARGED_WHERE_EXCESS_IS_0,
    DROPPED_PAIR_CHARGED_TWICE,
    KEEP_FORGETS_THE_SLACK,
    GO_AMONG_EQUALS,
    RUN_ENDS_WHERE_EXCESS_IS_0,
    REPORT_KEEPS_ITS_OWN_ROW,
    REPORT_TOTALS_THE_SHOWN_POLICY,
    LIMIT_ITSELF_REFUSED,
    OWN_ROW_CHECKED_TOO,
    LAST_BAD_ROW_NAMED,
    CHECKS_COLUMN_BY_COLUMN,
    SLACK_BEFORE_SOURCE_DELAY,
    FILLING_BEFORE_PASSENGERS,
    LENGTH_BEFORE_PERIOD,
    LISTS_BEFORE_M_AND_T,
    REPORTED_DELAY_BEFORE_TRAIN,
    REPORTED_DELAY_AFTER_CELLS,
    REPORTED_DELAY_WITHOUT_PLACE,
    BUFFERS_AFTER_SHEET,
    FIELDS_COUNTED_FROM_0,
    MOST_PASSENGERS_REFUSED,
    SLACK_0_REFUSED,
    PASSENGERS_BY_LEAVING_STATION,
    LENGTH_BLANKS,
    OTHER_REFUSALS_DO_NOT_BLANK,
    REFUSED_REPORT_AMENDS_THE_SHEET,
    ANSWER_UNWRITTEN_ON_10,
    ANSWER_WRITTEN_AT_ANOTHER_LENGTH,
    THIRD_NUMBER_KEPT_ON_A_REFUSAL,
    M_AND_T_SWAPPED,
    NUMBER_AND_PLACE_SWAPPED,
    TRAIN_1_SHOWS_KEEP,
    PLAN_LEAVES_THE_REST,
    READ_LEAVES_THE_REST,
    WRITE_CLEARS_THE_REST,
    CELLS_NOT_IN_USE_CLEARED,
    PAPER_MISTAKES
};

extern enum paper_mistake paper_wrong;
extern const char *const paper_mistakes[PAPER_MISTAKES];

/* "The bit sheet": the bytes of a sheet of m trains; a field put at a bit, which then moves on; and
 * a line packed as it is, each number cut to its field's width, with the bytes it takes. */
size_t paper_length(uint32_t m);
void paper_put(uint8_t *sheet, size_t *place, unsigned width, uint32_t value);
size_t paper_pack(const struct paper_line *line, uint8_t *sheet);

/* "Following a policy": the total of the policy keep, indexed by train from 2. */
uint64_t paper_total(const struct paper_line *line, const uint8_t *keep);

/* "Four operations", "Numbers of refusal": parameters and effects of the four calls of the header.
 * Up to 12 trains a plan is found by enumeration of all policies, and always checked against the
 * cells of "The working cells"; a paper side that contradicts itself ends the program. */
struct paper_verdict paper_read(const uint8_t *sheet, size_t sheet_count,
                                uint32_t *departures, size_t departures_count,
                                uint32_t *driving, size_t driving_count,
                                uint32_t *delays, size_t delays_count,
                                uint32_t *passengers, size_t passengers_count,
                                uint64_t *answer, size_t answer_count);

struct paper_verdict paper_write(uint32_t m, uint32_t period,
                                 const uint32_t *departures, size_t departures_count,
                                 const uint32_t *driving, size_t driving_count,
                                 const uint32_t *delays, size_t delays_count,
                                 const uint32_t *passengers, size_t passengers_count,
                                 uint8_t *sheet, size_t sheet_count,
                                 uint64_t *answer, size_t answer_count);

struct paper_verdict paper_plan(const uint8_t *sheet, size_t sheet_count,
                                uint64_t *cells, size_t cells_count,
                                uint8_t *decisions, size_t decisions_count,
                                uint32_t *delays, size_t delays_count,
                                uint64_t *answer, size_t answer_count);

struct paper_verdict paper_report(uint8_t *sheet, size_t sheet_count,
                                  uint32_t train, uint32_t delay,
                                  uint64_t *cells, size_t cells_count,
                                  uint8_t *decisions, size_t decisions_count,
                                  uint32_t *delays, size_t delays_count,
                                  uint64_t *answer, size_t answer_count);

#endif
