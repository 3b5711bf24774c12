/* Faults on purpose: of two at once, the one that comes first in 01's table has to be told. */
#include "faults.h"

#include "chance.h"

/* ---- one row of the table ---- */

static void spoil_answer(struct call *call)
{
    size_t right = call->count[ANSWER];
    while (call->count[ANSWER] == right)
        call->count[ANSWER] = below(9);
}

static size_t wrong_length(enum list l, size_t right)
{
    size_t room = list_room(l), length = right;
    while (length == right || length > room)
        switch (below(4)) {
        case 0: length = 0; break;
        case 1: length = right - 1; break;
        case 2: length = right + 1; break;
        default: length = below((uint32_t)room + 1);
        }
    return length;
}

/* Whether the row is the one that looks at the list's length. Write's lists stand apart; a sheet
 * that is read may have any length. */
static bool looks_at(enum paper_outcome row, enum operation operation, enum list l)
{
    if (l == ANSWER || !has_list(operation, l))
        return false;
    return (row == PAPER_LENGTH_BUFFER) == ((operation == WRITE) == (l == SHEET));
}

/* The lists take turns. */
static void spoil_length(struct call *call, enum paper_outcome row)
{
    static enum list l;
    do
        l = (l + 1) % LISTS;
    while (!looks_at(row, call->operation, l));
    call->count[l] = wrong_length(l, call->count[l]);
}

/* The lists of a write may or may not fit the wrong m that it is told. */
static void spoil_write_m(struct call *call)
{
    uint32_t m = call->first, other = 0;
    switch (below(5)) {
    case 0: break;
    case 1: other = between(65, 77); break;
    case 2: other = m + 128; break;
    case 3: other = m + (1u << (one_in(2) ? 8 : 16)); break;
    default: other = draw_over(64, 7);
    }
    if (other <= 77 && one_in(2))
        *call = right_write(other, call->second);
    call->first = other;
}

static uint32_t no_such_train(uint32_t m)
{
    uint32_t others[6] = {0, m + 1, UINT32_MAX, m + 256, m + 65536, draw_over(m, 7)};
    return others[below(6)];
}

/* Cells in use over the limit in two rows after the train, which is not among the last two. */
static void spoil_cells(uint32_t m, uint32_t train)
{
    uint32_t rows[2] = {between(train, m - 2), m - 1};
    for (int i = 0; i < 2; i++) {
        uint64_t more = one_in(2) ? 0 : chance() % (UINT64_MAX - LIMIT);
        desk.cells[64 * rows[i] + between(rows[i], m - 1)] = LIMIT + 1 + more;
    }
}

void spoil(struct call *call, enum paper_outcome row)
{
    uint32_t m = desk.sheet[0] >> 1;
    switch (row) {
    case PAPER_LENGTH_ANSWER: spoil_answer(call); break;
    case PAPER_LENGTH_BUFFER: case PAPER_LENGTH_LISTS: spoil_length(call, row); break;
    case PAPER_NO_SUCH_TRAIN: call->first = no_such_train(m); break;
    case PAPER_DELAY_REPORTED: call->second = draw_over(1440, 11); break;
    case PAPER_CELL: spoil_cells(m, call->first); break;
    default:
        if (call->operation != WRITE)
            call->count[SHEET] = damage_sheet(desk.sheet, call->count[SHEET], row);
        else if (row == PAPER_TRAIN_COUNT)
            spoil_write_m(call);
    }
}

/* ---- two rows at once ---- */

/* Another delay for train i. Where 12 looks, the first cell of each row is at the limit and none is
 * over it; elsewhere the cells are anything. */
static void lay_report(struct call *call, const struct paper_line *line, uint32_t i)
{
    call->first = i;
    do
        call->second = draw_delay();
    while (call->second == line->source[i]);
    for (uint32_t place = 0; place < OBLACHURA_CELLS; place++) {
        uint32_t k = place / 64 + 1, l = place % 64 + 1;
        bool looked_at = k > i && l >= k && l <= line->m;
        desk.cells[place] = looked_at ? (k == l ? LIMIT : chance() % LIMIT) : chance();
    }
}

/* Faults of two rows, the first not after the second in the table. In a line they stand at a train
 * in its middle, the second so many trains further on. The second is put in first, as a fault of an
 * earlier row may hide where it belongs. */
static void call_with(enum operation operation, enum paper_outcome first,
                      enum paper_outcome second, int steps)
{
    struct paper_line line;
    uint32_t trains = draw_trains(), m = trains < 5 ? 5 : trains, i = between(3, m - 2);
    draw_line(&line, m);
    damage_number(&line, second, (uint32_t)((int)i + steps), operation == WRITE);
    damage_number(&line, first, i, operation == WRITE);
    struct call call = lay(operation, &line);
    if (operation == REPORT)
        lay_report(&call, &line, i);
    spoil(&call, second);
    if (first != second)
        spoil(&call, first);
    make_call(&call);
}

/* "Checks 5, 13, 6, 7 run together train by train." */
static bool by_train(enum paper_outcome row)
{
    return row >= PAPER_DEPARTURE && row <= PAPER_SLACK;
}

/* Two faults of trains come at neighbouring trains too, each of them first. Accepted counts as a
 * row without a fault. */
static void faults_of(enum operation operation, uint32_t n)
{
    enum paper_outcome rows[PAPER_OUTCOMES];
    uint32_t count = 0, apart = 0;
    for (enum paper_outcome row = PAPER_ACCEPTED; row < PAPER_OUTCOMES; row++)
        if (can_give(operation, row))
            rows[count++] = row;
    for (n %= count * (count + 1) / 2; n >= count - apart; apart++)
        n -= count - apart;
    enum paper_outcome first = rows[n], second = rows[n + apart];
    int reach = by_train(first) && by_train(second) ? 1 : 0;
    for (int steps = -reach; steps <= reach; steps++)
        call_with(operation, first, second, steps);
}

void faults_on_purpose(uint32_t n)
{
    for (enum operation o = 0; o < OPERATIONS; o++)
        faults_of(o, n);
}
