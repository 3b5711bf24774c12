/* The paper side: document 01 worked out bit by bit, policy by policy and cell by cell. */
#include "paper.h"

#include <stdbool.h>
#include <stdio.h>
#include <stdlib.h>
#include <string.h>

#define LIMIT 1916928000000u
#define ENUMERATED 12                /* most trains whose policies are all followed */
#define DEFINED 7                    /* most trains whose cells are all found by enumeration too */

enum paper_mistake paper_wrong = PAPER_RIGHT;

const char *const paper_mistakes[PAPER_MISTAKES] = {
    [PAPER_RIGHT] = "right",
    [T_CHARGED_WHERE_EXCESS_IS_0] = "T is charged where the excess is 0",
    [DROPPED_PAIR_CHARGED_TWICE] = "a dropped pair is charged twice",
    [KEEP_FORGETS_THE_SLACK] = "keep forgets the slack",
    [GO_AMONG_EQUALS] = "go among equals",
    [RUN_ENDS_WHERE_EXCESS_IS_0] = "a run ends where the excess is 0",
    [REPORT_KEEPS_ITS_OWN_ROW] = "a report keeps its own train's row",
    [REPORT_TOTALS_THE_SHOWN_POLICY] = "a report returns the shown policy's total",
    [LIMIT_ITSELF_REFUSED] = "12 at the limit itself",
    [OWN_ROW_CHECKED_TOO] = "12 looks at the train's own row",
    [LAST_BAD_ROW_NAMED] = "12 names the last bad row",
    [CHECKS_COLUMN_BY_COLUMN] = "5, 13, 6, 7 column by column",
    [SLACK_BEFORE_SOURCE_DELAY] = "7 before 6 at one train",
    [FILLING_BEFORE_PASSENGERS] = "9 before 8",
    [LENGTH_BEFORE_PERIOD] = "1 and 4 before 3",
    [LISTS_BEFORE_M_AND_T] = "10 for write's lists before 2 and 3",
    [REPORTED_DELAY_BEFORE_TRAIN] = "the reported 6 before 11",
    [REPORTED_DELAY_AFTER_CELLS] = "the reported 6 after 12",
    [REPORTED_DELAY_WITHOUT_PLACE] = "the reported 6 has place 0",
    [BUFFERS_AFTER_SHEET] = "10 after the sheet's refusals",
    [FIELDS_COUNTED_FROM_0] = "the fields of 8 are counted from 0",
    [MOST_PASSENGERS_REFUSED] = "8 at 10,000 passengers",
    [SLACK_0_REFUSED] = "7 at slack 0",
    [PASSENGERS_BY_LEAVING_STATION] = "passengers stand by leaving station",
    [LENGTH_BLANKS] = "10 blanks decisions and delays",
    [OTHER_REFUSALS_DO_NOT_BLANK] = "other refusals do not blank",
    [REFUSED_REPORT_AMENDS_THE_SHEET] = "a report refused by 12 amends the sheet",
    [ANSWER_UNWRITTEN_ON_10] = "the answer is left unwritten on 10",
    [ANSWER_WRITTEN_AT_ANOTHER_LENGTH] = "a wrong answer list is written",
    [THIRD_NUMBER_KEPT_ON_A_REFUSAL] = "a refused read still answers m",
    [M_AND_T_SWAPPED] = "read answers T, then m",
    [NUMBER_AND_PLACE_SWAPPED] = "number and place are swapped",
    [TRAIN_1_SHOWS_KEEP] = "train 1 shows keep",
    [PLAN_LEAVES_THE_REST] = "decisions and delays after m are left",
    [READ_LEAVES_THE_REST] = "read leaves the rest of its lists",
    [WRITE_CLEARS_THE_REST] = "write clears the rest of its bytes",
    [CELLS_NOT_IN_USE_CLEARED] = "cells not in use are cleared",
};

static bool wrong(enum paper_mistake mistake)
{
    return paper_wrong == mistake;
}

/* A wrong paper side may well contradict itself; the right one may not. */
static void must(bool held, const char *sentence)
{
    if (held || paper_wrong != PAPER_RIGHT)
        return;
    fprintf(stderr, "the paper side contradicts itself: %s\n", sentence);
    exit(1);
}

uint32_t paper_number(enum paper_outcome outcome)
{
    static const uint32_t numbers[PAPER_OUTCOMES] = {
        [PAPER_ACCEPTED] = 0, [PAPER_LENGTH_ANSWER] = 10, [PAPER_LENGTH_BUFFER] = 10,
        [PAPER_SHORT_START] = 1, [PAPER_TRAIN_COUNT] = 2, [PAPER_PERIOD] = 3,
        [PAPER_LENGTH_LISTS] = 10, [PAPER_SHORT_FOR_M] = 1, [PAPER_LONG] = 4,
        [PAPER_DEPARTURE] = 5, [PAPER_DRIVING] = 13, [PAPER_DELAY_SHEET] = 6,
        [PAPER_SLACK] = 7, [PAPER_PASSENGERS] = 8, [PAPER_FILLING] = 9,
        [PAPER_NO_SUCH_TRAIN] = 11, [PAPER_DELAY_REPORTED] = 6, [PAPER_CELL] = 12,
    };
    return numbers[outcome];
}

static struct paper_verdict verdict(enum paper_outcome outcome, uint64_t place)
{
    return (struct paper_verdict){outcome, place};
}

static bool accepted(struct paper_verdict v)
{
    return v.outcome == PAPER_ACCEPTED;
}

/* ---- "The bit sheet" ---- */

static size_t bits_of(uint32_t m)
{
    return 7 * (size_t)m * m + 40 * (size_t)m + 18;
}

size_t paper_length(uint32_t m)
{
    return (bits_of(m) + 7) / 8;
}

static uint32_t bit_at(const uint8_t *sheet, size_t place)
{
    return sheet[place / 8] >> (7 - place % 8) & 1;
}

static void put_bit(uint8_t *sheet, size_t place, uint32_t bit)
{
    uint8_t mask = (uint8_t)(0x80 >> place % 8);
    sheet[place / 8] = (uint8_t)(bit ? sheet[place / 8] | mask : sheet[place / 8] & ~mask);
}

static uint32_t take(const uint8_t *sheet, size_t *place, unsigned width)
{
    uint32_t value = 0;
    for (unsigned i = 0; i < width; i++)
        value = 2 * value + bit_at(sheet, (*place)++);
    return value;
}

void paper_put(uint8_t *sheet, size_t *place, unsigned width, uint32_t value)
{
    for (unsigned i = width; i > 0; i--)
        put_bit(sheet, (*place)++, value >> (i - 1) & 1);
}

static void take_passengers(struct paper_line *line, const uint8_t *sheet, size_t *place)
{
    if (wrong(PASSENGERS_BY_LEAVING_STATION)) {
        for (uint32_t j = 2; j <= line->m + 1; j++)
            for (uint32_t i = 1; i < j; i++)
                line->passengers[i][j] = take(sheet, place, 14);
        return;
    }
    for (uint32_t i = 1; i <= line->m; i++)
        for (uint32_t j = i + 1; j <= line->m + 1; j++)
            line->passengers[i][j] = take(sheet, place, 14);
}

/* The fields after m and T, of a sheet that is long enough. */
static void take_line(struct paper_line *line, const uint8_t *sheet)
{
    size_t place = 18;
    for (uint32_t i = 1; i <= line->m; i++) {
        line->departure[i] = take(sheet, &place, 12);
        line->driving[i] = take(sheet, &place, 10);
        line->source[i] = take(sheet, &place, 11);
    }
    take_passengers(line, sheet, &place);
}

size_t paper_pack(const struct paper_line *line, uint8_t *sheet)
{
    size_t place = 0;
    paper_put(sheet, &place, 7, line->m);
    paper_put(sheet, &place, 11, line->period);
    for (uint32_t i = 1; i <= line->m; i++) {
        paper_put(sheet, &place, 12, line->departure[i]);
        paper_put(sheet, &place, 10, line->driving[i]);
        paper_put(sheet, &place, 11, line->source[i]);
    }
    for (uint32_t i = 1; i <= line->m; i++)
        for (uint32_t j = i + 1; j <= line->m + 1; j++)
            paper_put(sheet, &place, 14, line->passengers[i][j]);
    while (place % 8 != 0)
        put_bit(sheet, place++, 0);
    return place / 8;
}

/* ---- "Numbers of refusal": the checks of a line and of a sheet ---- */

static bool slack_under_0(const struct paper_line *line, uint32_t i)
{
    int64_t slack = (int64_t)line->departure[i] - line->departure[i - 1] - line->driving[i - 1];
    return slack < (wrong(SLACK_0_REFUSED) ? 1 : 0);
}

static bool refuses_train(const struct paper_line *line, uint32_t i, enum paper_outcome check)
{
    switch (check) {
    case PAPER_DEPARTURE: return line->departure[i] > 2879;
    case PAPER_DRIVING: return line->driving[i] > 1023;
    case PAPER_DELAY_SHEET: return line->source[i] > 1440;
    default: return i >= 2 && slack_under_0(line, i);
    }
}

static struct paper_verdict check_trains(const struct paper_line *line)
{
    enum paper_outcome checks[4] = {PAPER_DEPARTURE, PAPER_DRIVING, PAPER_DELAY_SHEET,
                                    PAPER_SLACK};
    if (wrong(SLACK_BEFORE_SOURCE_DELAY)) {
        checks[2] = PAPER_SLACK;
        checks[3] = PAPER_DELAY_SHEET;
    }
    if (wrong(CHECKS_COLUMN_BY_COLUMN)) {
        for (int c = 0; c < 4; c++)
            for (uint32_t i = 1; i <= line->m; i++)
                if (refuses_train(line, i, checks[c]))
                    return verdict(checks[c], i);
        return verdict(PAPER_ACCEPTED, 0);
    }
    for (uint32_t i = 1; i <= line->m; i++)
        for (int c = 0; c < 4; c++)
            if (refuses_train(line, i, checks[c]))
                return verdict(checks[c], i);
    return verdict(PAPER_ACCEPTED, 0);
}

static struct paper_verdict check_passengers(const struct paper_line *line)
{
    uint64_t field = wrong(FIELDS_COUNTED_FROM_0) ? 0 : 1;
    uint32_t most = wrong(MOST_PASSENGERS_REFUSED) ? 9999 : 10000;
    for (uint32_t i = 1; i <= line->m; i++)
        for (uint32_t j = i + 1; j <= line->m + 1; j++, field++)
            if (line->passengers[i][j] > most)
                return verdict(PAPER_PASSENGERS, field);
    return verdict(PAPER_ACCEPTED, 0);
}

static struct paper_verdict check_filling(const uint8_t *sheet, uint32_t m)
{
    for (size_t place = bits_of(m); place < 8 * paper_length(m); place++)
        if (bit_at(sheet, place) == 1)
            return verdict(PAPER_FILLING, 0);
    return verdict(PAPER_ACCEPTED, 0);
}

static enum paper_outcome check_count(uint32_t m)
{
    return m == 0 || m > 64 ? PAPER_TRAIN_COUNT : PAPER_ACCEPTED;
}

static enum paper_outcome check_period(uint32_t period)
{
    return period == 0 || period > 1440 ? PAPER_PERIOD : PAPER_ACCEPTED;
}

static enum paper_outcome check_length(size_t count, uint32_t m)
{
    if (count < paper_length(m))
        return PAPER_SHORT_FOR_M;
    return count > paper_length(m) ? PAPER_LONG : PAPER_ACCEPTED;
}

/* Up to and with the sheet's length; m and T are then in the line. */
static enum paper_outcome check_start(const uint8_t *sheet, size_t count, struct paper_line *line)
{
    enum paper_outcome o;
    size_t place = 0;
    if (count < 3)
        return PAPER_SHORT_START;
    line->m = take(sheet, &place, 7);
    line->period = take(sheet, &place, 11);
    if ((o = check_count(line->m)) != PAPER_ACCEPTED)
        return o;
    if (wrong(LENGTH_BEFORE_PERIOD) && (o = check_length(count, line->m)) != PAPER_ACCEPTED)
        return o;
    if ((o = check_period(line->period)) != PAPER_ACCEPTED)
        return o;
    return check_length(count, line->m);
}

static struct paper_verdict check_sheet(const uint8_t *sheet, size_t count,
                                        struct paper_line *line)
{
    enum paper_outcome start = check_start(sheet, count, line);
    if (start != PAPER_ACCEPTED)
        return verdict(start, 0);
    take_line(line, sheet);
    struct paper_verdict v = check_trains(line);
    if (!accepted(v))
        return v;
    if (wrong(FILLING_BEFORE_PASSENGERS) && !accepted(check_filling(sheet, line->m)))
        return verdict(PAPER_FILLING, 0);
    v = check_passengers(line);
    return accepted(v) ? check_filling(sheet, line->m) : v;
}

/* The refusals of read and plan; buffers says whether the lent ones have the lengths stated. */
static struct paper_verdict check_buffers_and_sheet(bool buffers, const uint8_t *sheet,
                                                    size_t count, struct paper_line *line)
{
    if (!buffers && !wrong(BUFFERS_AFTER_SHEET))
        return verdict(PAPER_LENGTH_BUFFER, 0);
    struct paper_verdict v = check_sheet(sheet, count, line);
    return accepted(v) && !buffers ? verdict(PAPER_LENGTH_BUFFER, 0) : v;
}

/* ---- "Following a policy" ---- */

static uint64_t excess_at(const struct paper_line *line, uint32_t station, uint64_t arrival)
{
    uint32_t i = station;
    uint64_t slack = line->departure[i] - line->departure[i - 1] - line->driving[i - 1];
    return arrival > slack ? arrival - slack : 0;
}

/* How late a train under keep departs from a station that its feeder reaches late. */
static uint64_t late_under_keep(const struct paper_line *line, uint32_t station, uint64_t arrival)
{
    return wrong(KEEP_FORGETS_THE_SLACK) ? arrival : excess_at(line, station, arrival);
}

/* Arrival delays and missed transfers from train k on, which departs with delay 0. */
static void follow(const struct paper_line *line, const uint8_t *keep, uint32_t k,
                   uint64_t *arrival, bool *missed)
{
    uint64_t late = 0;
    for (uint32_t i = k; i <= line->m; i++) {
        if (i > k) {
            uint64_t excess = excess_at(line, i, arrival[i - 1]);
            late = keep[i] ? late_under_keep(line, i, arrival[i - 1]) : 0;
            missed[i] = !keep[i] && (excess > 0 || wrong(T_CHARGED_WHERE_EXCESS_IS_0));
        }
        arrival[i] = late + line->source[i];
    }
}

static bool dropped(const bool *missed, uint32_t i, uint32_t j)
{
    for (uint32_t s = i + 1; s < j; s++)
        if (missed[s])
            return true;
    return false;
}

/* The total of the pairs that board at k or later and leave after l, train k departing on time. */
static uint64_t total_from(const struct paper_line *line, const uint8_t *keep,
                           uint32_t k, uint32_t l)
{
    uint64_t arrival[65], total = 0;
    bool missed[65] = {false};
    follow(line, keep, k, arrival, missed);
    for (uint32_t i = k; i <= line->m; i++)
        for (uint32_t j = i + 1; j <= line->m + 1; j++) {
            uint64_t each = arrival[j - 1];
            if (dropped(missed, i, j))
                each = line->period + (wrong(DROPPED_PAIR_CHARGED_TWICE) ? each : 0);
            if (j > l)
                total += line->passengers[i][j] * each;
        }
    return total;
}

uint64_t paper_total(const struct paper_line *line, const uint8_t *keep)
{
    return total_from(line, keep, 1, 1);
}

/* The least total_from over all policies that keep at stations k+1 to l-1. The policies come in
 * the order of 01's preference, keep before go from the first train up, so the first least one is
 * the one to take. */
static uint64_t least_from(const struct paper_line *line, uint32_t k, uint32_t l, uint8_t *best)
{
    uint32_t first = l > k ? l : k + 1;
    uint32_t open = line->m + 1 - first;
    uint64_t least = UINT64_MAX;
    for (uint32_t policy = 0; policy < 1u << open; policy++) {
        uint8_t keep[65];
        memset(keep, 1, sizeof keep);
        for (uint32_t i = first; i <= line->m; i++)
            keep[i] = !(policy >> (line->m - i) & 1);
        uint64_t total = total_from(line, keep, k, l);
        if (total < least || (wrong(GO_AMONG_EQUALS) && total == least)) {
            least = total;
            memcpy(best, keep, sizeof keep);
        }
    }
    return least;
}

/* ---- "The working cells" ---- */

static uint64_t *cell(uint64_t *cells, uint32_t k, uint32_t l)
{
    return &cells[64 * (k - 1) + (l - 1)];
}

/* Train l's arrival delay when train k departs on time and every transfer up to l is kept. */
static uint64_t arrival_on_run(const struct paper_line *line, uint32_t k, uint32_t l)
{
    uint64_t arrival = line->source[k];
    for (uint32_t i = k + 1; i <= l; i++)
        arrival = late_under_keep(line, i, arrival) + line->source[i];
    return arrival;
}

static uint64_t leaving_after(const struct paper_line *line, uint32_t k, uint32_t l)
{
    uint64_t persons = 0;
    for (uint32_t i = k; i <= l; i++)
        persons += line->passengers[i][l + 1];
    return persons;
}

static uint64_t changing_at(const struct paper_line *line, uint32_t k, uint32_t l)
{
    uint64_t persons = 0;
    for (uint32_t i = k; i <= l - 1; i++)
        for (uint32_t j = l + 1; j <= line->m + 1; j++)
            persons += line->passengers[i][j];
    return persons;
}

struct choices {
    bool both;                       /* go is a choice too */
    bool in_time;                    /* the excess at station l is 0 */
    uint64_t keep, go;
};

/* The choices of cell (k, l), from its neighbours as they stand. */
static struct choices choices_of(const struct paper_line *line, uint64_t *cells,
                                 uint32_t k, uint32_t l)
{
    struct choices c = {false, true, 0, 0};
    c.keep = leaving_after(line, k, l) * arrival_on_run(line, k, l);
    if (l < line->m)
        c.keep += *cell(cells, k, l + 1);
    if (l == k)
        return c;
    c.in_time = excess_at(line, l, arrival_on_run(line, k, l - 1)) == 0;
    c.both = !c.in_time || wrong(T_CHARGED_WHERE_EXCESS_IS_0);
    c.go = line->period * changing_at(line, k, l) + *cell(cells, l, l);
    return c;
}

static void work_row(const struct paper_line *line, uint64_t *cells, uint32_t k)
{
    for (uint32_t l = line->m; l >= k; l--) {
        struct choices c = choices_of(line, cells, k, l);
        *cell(cells, k, l) = c.both && c.go < c.keep ? c.go : c.keep;
    }
    if (wrong(CELLS_NOT_IN_USE_CLEARED))
        for (uint32_t l = 1; l < k; l++)
            *cell(cells, k, l) = 0;
}

/* From train 2 up, the lesser of the two choices in the cells; k is where the run began. */
static void decide_by_cells(const struct paper_line *line, uint64_t *cells, uint8_t *keep)
{
    uint32_t k = 1;
    for (uint32_t l = 2; l <= line->m; l++) {
        struct choices c = choices_of(line, cells, k, l);
        bool equal_keeps = !wrong(GO_AMONG_EQUALS);
        keep[l] = !c.both || c.keep < c.go || (equal_keeps && c.keep == c.go);
        if (!keep[l] || (wrong(RUN_ENDS_WHERE_EXCESS_IS_0) && c.in_time))
            k = l;
    }
}

static void check_cells_by_definition(const struct paper_line *line, uint64_t *cells)
{
    uint8_t any[65];
    for (uint32_t k = 1; k <= line->m; k++)
        for (uint32_t l = k; l <= line->m; l++)
            must(*cell(cells, k, l) == least_from(line, k, l, any),
                 "a cell is not the least total that it stands for");
}

/* Cells, decisions and total of a plan. */
static uint64_t plan_line(const struct paper_line *line, uint64_t *cells, uint8_t *keep)
{
    for (uint32_t k = line->m; k >= 1; k--)
        work_row(line, cells, k);
    decide_by_cells(line, cells, keep);
    must(paper_total(line, keep) == *cell(cells, 1, 1), "the policy shown has another total");
    if (line->m > ENUMERATED)
        return *cell(cells, 1, 1);

    uint8_t best[65];
    uint64_t least = least_from(line, 1, 1, best);
    must(least == *cell(cells, 1, 1), "cell (1, 1) is not the least total");
    for (uint32_t i = 2; i <= line->m; i++)
        must(best[i] == keep[i], "the cells show another policy than the enumeration");
    if (paper_wrong == PAPER_RIGHT && line->m <= DEFINED)
        check_cells_by_definition(line, cells);
    memcpy(keep, best, sizeof best);
    return least;
}

/* ---- "Four operations" ---- */

/* A list for the answer of another length. */
static struct paper_verdict say_nothing(uint64_t *answer, size_t answer_count)
{
    if (wrong(ANSWER_WRITTEN_AT_ANOTHER_LENGTH) && answer_count > 0)
        answer[0] = 10;
    return verdict(PAPER_LENGTH_ANSWER, 0);
}

/* Number and place, then what the call returns, 0 if it is refused. */
static void say(uint64_t *answer, struct paper_verdict v, uint64_t third)
{
    uint64_t number = paper_number(v.outcome);
    if (wrong(ANSWER_UNWRITTEN_ON_10) && number == 10)
        return;
    answer[0] = wrong(NUMBER_AND_PLACE_SWAPPED) ? v.place : number;
    answer[1] = wrong(NUMBER_AND_PLACE_SWAPPED) ? number : v.place;
    answer[2] = accepted(v) || wrong(THIRD_NUMBER_KEPT_ON_A_REFUSAL) ? third : 0;
}

/* The first m numbers, then 0 up to 64. */
static void list_by_train(uint32_t *list, const uint32_t *by_train, uint32_t m)
{
    for (uint32_t i = 1; i <= 64; i++)
        if (i <= m)
            list[i - 1] = by_train[i];
        else if (!wrong(READ_LEAVES_THE_REST))
            list[i - 1] = 0;
}

static void list_passengers(uint32_t *list, const struct paper_line *line)
{
    size_t field = 0;
    for (uint32_t i = 1; i <= line->m; i++)
        for (uint32_t j = i + 1; j <= line->m + 1; j++)
            list[field++] = line->passengers[i][j];
    while (field < 2080 && !wrong(READ_LEAVES_THE_REST))
        list[field++] = 0;
}

struct paper_verdict paper_read(const uint8_t *sheet, size_t sheet_count,
                                uint32_t *departures, size_t departures_count,
                                uint32_t *driving, size_t driving_count,
                                uint32_t *delays, size_t delays_count,
                                uint32_t *passengers, size_t passengers_count,
                                uint64_t *answer, size_t answer_count)
{
    struct paper_line line = {0};
    if (answer_count != 4)
        return say_nothing(answer, answer_count);
    bool buffers = departures_count == 64 && driving_count == 64 && delays_count == 64
                   && passengers_count == 2080;
    struct paper_verdict v = check_buffers_and_sheet(buffers, sheet, sheet_count, &line);
    if (accepted(v)) {
        list_by_train(departures, line.departure, line.m);
        list_by_train(driving, line.driving, line.m);
        list_by_train(delays, line.source, line.m);
        list_passengers(passengers, &line);
    }
    uint32_t m_and_t[2] = {line.m, line.period};
    bool swapped = wrong(M_AND_T_SWAPPED);
    say(answer, v, m_and_t[swapped]);
    if (v.outcome != PAPER_LENGTH_BUFFER || !wrong(ANSWER_UNWRITTEN_ON_10))
        answer[3] = accepted(v) ? m_and_t[!swapped] : 0;
    return v;
}

/* Write's checks up to the lengths of its lists. */
static enum paper_outcome check_write(uint32_t m, uint32_t period, const size_t *by_train,
                                      size_t passengers_count, size_t sheet_count)
{
    uint64_t pairs = (uint64_t)m * ((uint64_t)m + 1) / 2;
    bool lists = by_train[0] == m && by_train[1] == m && by_train[2] == m
                 && passengers_count == pairs;
    if (sheet_count != 3907)
        return PAPER_LENGTH_BUFFER;
    if (wrong(LISTS_BEFORE_M_AND_T) && !lists)
        return PAPER_LENGTH_LISTS;
    if (check_count(m) != PAPER_ACCEPTED)
        return PAPER_TRAIN_COUNT;
    if (check_period(period) != PAPER_ACCEPTED)
        return PAPER_PERIOD;
    return lists ? PAPER_ACCEPTED : PAPER_LENGTH_LISTS;
}

struct paper_verdict paper_write(uint32_t m, uint32_t period,
                                 const uint32_t *departures, size_t departures_count,
                                 const uint32_t *driving, size_t driving_count,
                                 const uint32_t *delays, size_t delays_count,
                                 const uint32_t *passengers, size_t passengers_count,
                                 uint8_t *sheet, size_t sheet_count,
                                 uint64_t *answer, size_t answer_count)
{
    struct paper_line line = {.m = m, .period = period};
    size_t by_train[3] = {departures_count, driving_count, delays_count};
    if (answer_count != 3)
        return say_nothing(answer, answer_count);
    struct paper_verdict v = verdict(check_write(m, period, by_train, passengers_count,
                                                 sheet_count), 0);
    if (accepted(v)) {
        size_t field = 0;
        for (uint32_t i = 1; i <= m; i++) {
            line.departure[i] = departures[i - 1];
            line.driving[i] = driving[i - 1];
            line.source[i] = delays[i - 1];
            for (uint32_t j = i + 1; j <= m + 1; j++)
                line.passengers[i][j] = passengers[field++];
        }
        v = check_trains(&line);
        if (accepted(v))
            v = check_passengers(&line);
    }
    if (accepted(v)) {
        paper_pack(&line, sheet);
        if (wrong(WRITE_CLEARS_THE_REST))
            memset(sheet + paper_length(m), 0, 3907 - paper_length(m));
    }
    say(answer, v, accepted(v) ? paper_length(m) : 0);
    return v;
}

/* Decision byte 1 is 0; the delays are those of the policy followed. */
static void show_plan(const struct paper_line *line, const uint8_t *keep,
                      uint8_t *decisions, uint32_t *delays)
{
    uint64_t arrival[65];
    bool missed[65];
    follow(line, keep, 1, arrival, missed);
    if (!wrong(PLAN_LEAVES_THE_REST)) {
        memset(decisions, 0, 64);
        memset(delays, 0, 64 * sizeof *delays);
    }
    for (uint32_t i = 1; i <= line->m; i++) {
        decisions[i - 1] = i >= 2 ? keep[i] : wrong(TRAIN_1_SHOWS_KEEP);
        delays[i - 1] = (uint32_t)arrival[i];
    }
}

static void show_blanks(uint8_t *decisions, uint32_t *delays)
{
    memset(decisions, 2, 64);
    memset(delays, 0, 64 * sizeof *delays);
}

static bool plan_buffers(size_t cells_count, size_t decisions_count, size_t delays_count)
{
    return cells_count == 4096 && decisions_count == 64 && delays_count == 64;
}

/* What plan and report do when they refuse. */
static void refuse(struct paper_verdict v, uint8_t *decisions, size_t decisions_count,
                   uint32_t *delays, size_t delays_count)
{
    bool blanks = v.outcome == PAPER_LENGTH_BUFFER ? wrong(LENGTH_BLANKS)
                                                   : !wrong(OTHER_REFUSALS_DO_NOT_BLANK);
    if (blanks && decisions_count == 64 && delays_count == 64)
        show_blanks(decisions, delays);
}

struct paper_verdict paper_plan(const uint8_t *sheet, size_t sheet_count,
                                uint64_t *cells, size_t cells_count,
                                uint8_t *decisions, size_t decisions_count,
                                uint32_t *delays, size_t delays_count,
                                uint64_t *answer, size_t answer_count)
{
    struct paper_line line = {0};
    uint8_t keep[65] = {0};
    uint64_t total = 0;
    if (answer_count != 3)
        return say_nothing(answer, answer_count);
    bool buffers = plan_buffers(cells_count, decisions_count, delays_count);
    struct paper_verdict v = check_buffers_and_sheet(buffers, sheet, sheet_count, &line);
    if (accepted(v)) {
        total = plan_line(&line, cells, keep);
        show_plan(&line, keep, decisions, delays);
    } else {
        refuse(v, decisions, decisions_count, delays, delays_count);
    }
    say(answer, v, total);
    return v;
}

/* Refusal 12 and its row, or accepted. */
static struct paper_verdict check_cells(const struct paper_line *line, uint32_t train,
                                        uint64_t *cells)
{
    uint64_t most = wrong(LIMIT_ITSELF_REFUSED) ? LIMIT - 1 : LIMIT;
    struct paper_verdict v = verdict(PAPER_ACCEPTED, 0);
    for (uint32_t k = wrong(OWN_ROW_CHECKED_TOO) ? train : train + 1; k <= line->m; k++)
        for (uint32_t l = k; l <= line->m; l++)
            if (*cell(cells, k, l) > most && (accepted(v) || wrong(LAST_BAD_ROW_NAMED)))
                v = verdict(PAPER_CELL, k);
    return v;
}

/* The checks that report has besides plan's. */
static struct paper_verdict check_report(const struct paper_line *line, uint32_t train,
                                         uint32_t delay, uint64_t *cells)
{
    if (wrong(REPORTED_DELAY_BEFORE_TRAIN) && delay > 1440)
        return verdict(PAPER_DELAY_REPORTED, train);
    if (train == 0 || train > line->m)
        return verdict(PAPER_NO_SUCH_TRAIN, 0);
    struct paper_verdict v = check_cells(line, train, cells);
    if (delay > 1440 && (accepted(v) || !wrong(REPORTED_DELAY_AFTER_CELLS)))
        return verdict(PAPER_DELAY_REPORTED, wrong(REPORTED_DELAY_WITHOUT_PLACE) ? 0 : train);
    return v;
}

static void amend(uint8_t *sheet, uint32_t train, uint32_t delay)
{
    size_t place = 18 + 33 * (size_t)(train - 1) + 12 + 10;
    paper_put(sheet, &place, 11, delay);
}

/* An accepted report; returns its total. */
static uint64_t report_line(struct paper_line *line, uint8_t *sheet, uint32_t train,
                            uint32_t delay, uint64_t *cells, uint8_t *keep)
{
    amend(sheet, train, delay);
    line->source[train] = delay;
    for (uint32_t k = wrong(REPORT_KEEPS_ITS_OWN_ROW) ? train - 1 : train; k >= 1; k--)
        work_row(line, cells, k);
    decide_by_cells(line, cells, keep);
    if (wrong(REPORT_TOTALS_THE_SHOWN_POLICY))
        return paper_total(line, keep);
    return *cell(cells, 1, 1);
}

struct paper_verdict paper_report(uint8_t *sheet, size_t sheet_count,
                                  uint32_t train, uint32_t delay,
                                  uint64_t *cells, size_t cells_count,
                                  uint8_t *decisions, size_t decisions_count,
                                  uint32_t *delays, size_t delays_count,
                                  uint64_t *answer, size_t answer_count)
{
    struct paper_line line = {0};
    uint8_t keep[65] = {0};
    uint64_t total = 0;
    if (answer_count != 3)
        return say_nothing(answer, answer_count);
    bool buffers = plan_buffers(cells_count, decisions_count, delays_count);
    struct paper_verdict v = check_buffers_and_sheet(buffers, sheet, sheet_count, &line);
    if (accepted(v))
        v = check_report(&line, train, delay, cells);
    if (wrong(REFUSED_REPORT_AMENDS_THE_SHEET) && v.outcome == PAPER_CELL)
        amend(sheet, train, delay);
    if (accepted(v)) {
        total = report_line(&line, sheet, train, delay, cells, keep);
        show_plan(&line, keep, decisions, delays);
    } else {
        refuse(v, decisions, decisions_count, delays, delays_count);
    }
    say(answer, v, total);
    return v;
}
