/* Lines and sheets by chance: flavours of good lines, damaged fields, damaged bytes. */
#include "sheets.h"

#include "chance.h"

#include <string.h>

/* JUST has slacks at which a late feeder is just in time, or just not. */
enum flavour { FREE, LEAST, MOST, EDGES, NO_SLACK, TINY, SMALL_PERIOD, LARGE_PERIOD, DAILY, JUST,
               FLAVOURS };

static uint32_t smaller(uint32_t a, uint32_t b)
{
    return a < b ? a : b;
}

uint32_t draw_trains(void)
{
    uint32_t share = below(100);
    if (share < 48)
        return between(1, 8);
    return share < 72 ? between(9, 12) : between(13, 64);
}

static uint32_t edge(uint32_t least, uint32_t most)
{
    uint32_t edges[4] = {least, least + 1, most - 1, most};
    return edges[below(4)];
}

uint32_t draw_delay(void)
{
    switch (below(4)) {
    case 0: return edge(0, 1440);
    case 1: return between(0, 1440);
    default: return between(0, 12);
    }
}

/* One number of a line between 0 and most, after the flavour. */
static uint32_t draw_number(enum flavour flavour, uint32_t most, uint32_t daily)
{
    switch (flavour) {
    case LEAST: return 0;
    case MOST: return most;
    case EDGES: return edge(0, most);
    case TINY: return below(4);
    case SMALL_PERIOD: case LARGE_PERIOD: case DAILY: case JUST: return between(0, daily);
    default: return between(0, most);
    }
}

static uint32_t draw_period(enum flavour flavour)
{
    switch (flavour) {
    case LEAST: return 1;
    case MOST: return 1440;
    case EDGES: return edge(1, 1440);
    case TINY: return between(1, 5);
    case SMALL_PERIOD: return between(1, 6);
    case LARGE_PERIOD: return between(200, 1440);
    case DAILY: case JUST: return between(5, 60);
    default: return between(1, 1440);
    }
}

/* A part of the minutes that are left before 2,879, such that the trains to come find room. */
static uint32_t draw_part(enum flavour flavour, uint32_t left, uint32_t trains, uint32_t most)
{
    uint32_t room = flavour == EDGES || one_in(16) ? left : left / (trains + 1) / 2;
    uint32_t daily = flavour == TINY ? 3 : 15;
    if (flavour == FREE || flavour == NO_SLACK || flavour == EDGES || flavour == MOST)
        daily = most;
    if (flavour == LEAST)
        daily = 0;
    uint32_t bound = smaller(smaller(room, daily), most);
    return flavour == MOST || (flavour == EDGES && one_in(2)) ? bound : between(0, bound);
}

/* The slack of a stop whose feeder is so late if every transfer before was kept. */
static uint32_t draw_slack(enum flavour flavour, uint32_t left, uint32_t trains, uint32_t late)
{
    if (flavour == NO_SLACK || flavour == MOST || one_in(4))
        return 0;
    if (flavour == JUST)
        return smaller(left, between(late > 0 ? late - 1 : 0, late + 1));
    return draw_part(flavour, left, trains, 2879);
}

static void draw_times(struct paper_line *line, enum flavour flavour)
{
    uint32_t at = draw_part(flavour, 2879, line->m, 2879), late = 0;
    if (flavour == MOST && one_in(2))
        at = 2879;
    for (uint32_t i = 1; i < line->m; i++) {
        uint32_t after = line->m - i;
        line->departure[i] = at;
        line->driving[i] = draw_part(flavour, 2879 - at, after, 1023);
        line->source[i] = draw_number(flavour, 1440, 30);
        at += line->driving[i];
        late += line->source[i];
        uint32_t slack = draw_slack(flavour, 2879 - at, after, late);
        at += slack;
        late -= smaller(slack, late);
    }
    line->departure[line->m] = at;
    line->driving[line->m] = draw_number(flavour, 1023, 40);
    line->source[line->m] = draw_number(flavour, 1440, 30);
}

void draw_line(struct paper_line *line, uint32_t m)
{
    enum flavour flavour = below(FLAVOURS);
    memset(line, 0, sizeof *line);
    line->m = m;
    line->period = draw_period(flavour);
    draw_times(line, flavour);
    for (uint32_t i = 1; i <= m; i++)
        for (uint32_t j = i + 1; j <= m + 1; j++)
            line->passengers[i][j] = draw_number(flavour, 10000, 25);
}

uint32_t draw_over(uint32_t most, unsigned width)
{
    uint32_t passing = below(most + 1), number;
    switch (below(5)) {
    case 0: return most + 1;
    case 1: return (1u << width) + passing;
    case 2: return (1u << 16) + passing;
    case 3: return (1u << 31) + passing;
    }
    do
        number = any_32();
    while (number <= most);
    return number;
}

/* A number past most that a field of the width can hold, or any for a list. */
static uint32_t too_much(uint32_t most, unsigned width, bool for_lists)
{
    if (for_lists)
        return draw_over(most, width);
    return one_in(2) ? edge(most + 1, (1u << width) - 1) : between(most + 1, (1u << width) - 1);
}

/* Makes train i, from 2, depart before its feeder arrives: the one earlier or the other later. */
static void damage_slack(struct paper_line *line, uint32_t i)
{
    uint32_t reached = line->departure[i - 1] + line->driving[i - 1];
    if (reached > 0 && line->departure[i] <= 2879 && one_in(2)) {
        line->departure[i] = smaller(one_in(2) ? reached - 1 : below(reached), 2879);
        return;
    }
    line->departure[i - 1] = 2879;
    line->driving[i - 1] = 1023;
}

void damage_number(struct paper_line *line, enum paper_outcome row, uint32_t i, bool for_lists)
{
    switch (row) {
    case PAPER_PERIOD: line->period = one_in(3) ? 0 : too_much(1440, 11, for_lists); break;
    case PAPER_DEPARTURE: line->departure[i] = too_much(2879, 12, for_lists); break;
    case PAPER_DRIVING: line->driving[i] = too_much(1023, 10, for_lists); break;
    case PAPER_DELAY_SHEET: line->source[i] = too_much(1440, 11, for_lists); break;
    case PAPER_SLACK: damage_slack(line, i); break;
    case PAPER_PASSENGERS: {
        uint32_t j = between(i + 1, line->m + 1);
        line->passengers[i][j] = too_much(10000, 14, for_lists);
        break;
    }
    default: break;
    }
}

void damage_line(struct paper_line *line, bool for_lists)
{
    static const enum paper_outcome rows[6] = {PAPER_PERIOD, PAPER_DEPARTURE, PAPER_DELAY_SHEET,
                                               PAPER_SLACK, PAPER_PASSENGERS, PAPER_DRIVING};
    for (uint32_t n = one_in(2) ? 1 : between(2, 5); n > 0; n--) {
        uint32_t i = between(1, line->m);
        enum paper_outcome row = rows[below(for_lists ? 6 : 5)];
        if (row != PAPER_SLACK || i >= 2)
            damage_number(line, row, i, for_lists);
    }
}

static void draw_bytes(uint8_t *bytes, size_t from, size_t to)
{
    for (size_t i = from; i < to; i++)
        bytes[i] = (uint8_t)chance();
}

static size_t stretch(uint8_t *sheet, size_t count)
{
    size_t longer = count + 1;
    switch (below(3)) {
    case 0: longer += below(64); break;
    case 1: longer = between((uint32_t)count + 1, SHEET_ROOM); break;
    }
    if (one_in(2))
        memset(sheet + count, 0, longer - count);
    else
        draw_bytes(sheet, count, longer);
    return longer;
}

/* Sets at least one bit behind the last field: there are 2, 6 or 7 of them. */
static void set_filling(uint8_t *sheet, size_t m)
{
    size_t bits = 7 * m * m + 40 * m + 18;
    unsigned filling = (unsigned)(8 * paper_length((uint32_t)m) - bits);
    sheet[bits / 8] |= (uint8_t)(one_in(2) ? 1u << below(filling) : (1u << filling) - 1);
}

size_t damage_sheet(uint8_t *sheet, size_t count, enum paper_outcome row)
{
    uint32_t m = sheet[0] >> 1, right = (uint32_t)paper_length(m);
    size_t place = 0;
    switch (row) {
    case PAPER_SHORT_START:
        return below(3);
    case PAPER_TRAIN_COUNT:
        paper_put(sheet, &place, 7, one_in(3) ? 0 : one_in(2) ? edge(65, 127) : between(65, 127));
        return count;
    case PAPER_SHORT_FOR_M:
        return one_in(2) ? right - 1 : between(3, right - 1);
    case PAPER_LONG:
        return stretch(sheet, right);
    case PAPER_FILLING:
        set_filling(sheet, m);
        return count;
    default:
        return count;
    }
}

static void flip_bits(uint8_t *sheet, size_t count)
{
    for (uint32_t n = between(1, 4); n > 0; n--) {
        uint32_t bit = below(8 * (uint32_t)count);
        sheet[bit / 8] ^= (uint8_t)(1u << bit % 8);
    }
}

size_t damage_bytes(uint8_t *sheet, size_t count)
{
    static const enum paper_outcome rows[5] = {PAPER_SHORT_START, PAPER_TRAIN_COUNT,
                                               PAPER_SHORT_FOR_M, PAPER_LONG, PAPER_FILLING};
    size_t place = 0;
    switch (below(7)) {
    case 0:
        flip_bits(sheet, count);
        return count;
    case 1:
        paper_put(sheet, &place, 7, between(1, 64));
        return count;
    default:
        return damage_sheet(sheet, count, rows[below(5)]);
    }
}

/* Bytes by chance, at times of the length that their m demands. */
static size_t draw_noise(uint8_t *sheet)
{
    size_t count = one_in(3) ? below(16) : one_in(2) ? below(3908) : below(SHEET_ROOM + 1);
    draw_bytes(sheet, 0, count);
    if (count < 3 || one_in(3))
        return count;
    size_t m = between(1, 64), place = 0, fitting = paper_length((uint32_t)m);
    draw_bytes(sheet, count, fitting > count ? fitting : count);
    paper_put(sheet, &place, 7, (uint32_t)m);
    paper_put(sheet, &place, 11, between(1, 1440));
    return one_in(4) ? count : fitting;
}

size_t draw_sheet(uint8_t *sheet)
{
    struct paper_line line;
    uint32_t share = below(100);
    if (share < 12)
        return draw_noise(sheet);
    draw_line(&line, draw_trains());
    if (share < 50)
        damage_line(&line, false);
    size_t count = paper_pack(&line, sheet);
    if (share < 20 || (share >= 50 && share < 75))
        count = damage_bytes(sheet, count);
    return count;
}
