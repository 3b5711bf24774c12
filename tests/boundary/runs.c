/* The runs: reads written back, writes, plans, reports in a row and reports on any cells, by chance;
 * faults and good lines on purpose. */
#include "runs.h"

#include "calls.h"
#include "chance.h"
#include "faults.h"

#include <string.h>

static void spoil_lengths(struct call *call)
{
    for (uint32_t n = one_in(2) ? 1 : between(2, 4); n > 0; n--)
        spoil(call, call->operation == WRITE && !one_in(5) ? PAPER_LENGTH_LISTS
                                                           : PAPER_LENGTH_BUFFER);
}

static void spoil_at_times(struct call *call)
{
    if (one_in(16))
        spoil_lengths(call);
    if (one_in(40))
        spoil(call, PAPER_LENGTH_ANSWER);
}

/* ---- read and write ---- */

/* What an accepted read left, written again, has to give the same bytes. */
static void write_back(size_t sheet_count)
{
    static uint8_t sheet[SHEET_ROOM];
    struct call call = right_write((uint32_t)desk.answer[2], (uint32_t)desk.answer[3]);
    memcpy(sheet, desk.sheet, sheet_count);
    scribble_outputs(WRITE);
    make_call(&call);
    if (desk.answer[2] != sheet_count)
        differ("length of the sheet written back", 0, sheet_count, desk.answer[2]);
    for (size_t i = 0; i < sheet_count; i++)
        if (desk.sheet[i] != sheet[i])
            differ("sheet written back", i, sheet[i], desk.sheet[i]);
}

static void read_and_write_back(struct call read)
{
    if (make_call(&read).outcome == PAPER_ACCEPTED)
        write_back(read.count[SHEET]);
}

static void run_read(void)
{
    struct call call = right_call(READ, draw_sheet(desk.sheet));
    scribble_outputs(READ);
    spoil_at_times(&call);
    read_and_write_back(call);
}

static void run_write(void)
{
    struct paper_line line;
    draw_line(&line, draw_trains());
    if (one_in(4))
        damage_line(&line, false);
    if (one_in(3))
        damage_line(&line, true);
    struct call call = lay(WRITE, &line);
    if (one_in(12))
        spoil(&call, PAPER_TRAIN_COUNT);
    call.one_list = one_in(24);
    if (!call.one_list && one_in(6))
        spoil_lengths(&call);
    if (one_in(40))
        spoil(&call, PAPER_LENGTH_ANSWER);
    make_call(&call);
}

/* ---- plan and report ---- */

static void run_plan(void)
{
    struct call call = right_call(PLAN, draw_sheet(desk.sheet));
    scribble_outputs(PLAN);
    spoil_at_times(&call);
    make_call(&call);
}

static struct call draw_report(uint32_t m, size_t sheet_count)
{
    struct call call = right_call(REPORT, sheet_count);
    call.first = one_in(6) ? m : between(1, m);
    call.second = draw_delay();
    if (one_in(16))
        spoil(&call, PAPER_NO_SUCH_TRAIN);
    if (one_in(16))
        spoil(&call, PAPER_DELAY_REPORTED);
    scribble_outputs(REPORT);
    return call;
}

/* After a plan and reports that followed it, the desk has to show a plan of the sheet as it is. */
static void check_fresh(size_t sheet_count)
{
    static uint64_t cells[OBLACHURA_CELLS];
    uint8_t decisions[OBLACHURA_TRAINS];
    uint32_t delays[OBLACHURA_TRAINS];
    uint64_t answer[OBLACHURA_ANSWER];
    memcpy(cells, desk.cells, sizeof cells);
    paper_plan(desk.sheet, sheet_count, cells, OBLACHURA_CELLS, decisions, OBLACHURA_TRAINS,
               delays, OBLACHURA_TRAINS, answer, OBLACHURA_ANSWER);
    for (size_t i = 0; i < OBLACHURA_ANSWER; i++)
        if (answer[i] != desk.answer[i])
            differ("answer against a fresh plan", i, answer[i], desk.answer[i]);
    for (size_t i = 0; i < OBLACHURA_TRAINS; i++)
        if (decisions[i] != desk.decisions[i])
            differ("decisions against a fresh plan", i, decisions[i], desk.decisions[i]);
    for (size_t i = 0; i < OBLACHURA_TRAINS; i++)
        if (delays[i] != desk.delays[i])
            differ("delays against a fresh plan", i, delays[i], desk.delays[i]);
    for (size_t i = 0; i < OBLACHURA_CELLS; i++)
        if (cells[i] != desk.cells[i])
            differ("cells against a fresh plan", i, cells[i], desk.cells[i]);
}

/* A report on a damaged sheet in between; the sheet and the cells are then put back. */
static void report_on_damage(uint32_t m, size_t sheet_count)
{
    static struct desk kept;
    kept = desk;
    struct call call = draw_report(m, damage_bytes(desk.sheet, sheet_count));
    make_call(&call);
    desk = kept;
}

static void report_once(uint32_t m, size_t sheet_count)
{
    struct call call = draw_report(m, sheet_count);
    spoil_at_times(&call);
    if (make_call(&call).outcome == PAPER_ACCEPTED)
        check_fresh(sheet_count);
}

static struct call lay_good_line(enum operation operation, uint32_t m)
{
    struct paper_line line;
    draw_line(&line, m);
    return lay(operation, &line);
}

/* A plan, then reports in a row, some of them refused. */
static void run_reports(void)
{
    uint32_t m = draw_trains();
    struct call plan = lay_good_line(PLAN, m);
    make_call(&plan);
    for (uint32_t n = between(1, 12); n > 0; n--)
        if (one_in(16))
            report_on_damage(m, plan.count[SHEET]);
        else
            report_once(m, plan.count[SHEET]);
}

static uint64_t draw_cell(uint32_t kind)
{
    switch (kind) {
    case 0: return chance();
    case 1: return chance() % ((uint64_t)LIMIT + 1);
    case 2: return LIMIT;
    case 3: return (uint64_t)LIMIT + 1;
    case 4: return UINT64_MAX;
    default: return below(2000);
    }
}

/* Cells that no plan left: of one kind all over, with some others put in. */
static void draw_cells(uint32_t m)
{
    uint32_t kind = below(8);
    for (size_t i = 0; kind < 6 && i < OBLACHURA_CELLS; i++)
        desk.cells[i] = draw_cell(kind);
    for (uint32_t n = below(4); n > 0; n--) {
        uint32_t row = below(m), column = one_in(4) ? below(OBLACHURA_TRAINS) : between(row, m - 1);
        desk.cells[64 * row + column] = draw_cell(below(6));
    }
}

/* Reports on any cells: what a plan left and others spoiled, or noise. */
static void run_any_cells(void)
{
    uint32_t m = draw_trains();
    struct call plan = lay_good_line(PLAN, m);
    if (one_in(2))
        make_call(&plan);
    draw_cells(m);
    for (uint32_t n = between(1, 3); n > 0; n--) {
        struct call call = draw_report(m, plan.count[SHEET]);
        spoil_at_times(&call);
        make_call(&call);
    }
}

/* A report on any sheet, with the cells of some other line. */
static void run_any_sheet(void)
{
    size_t sheet_count = draw_sheet(desk.sheet);
    struct call call = draw_report(between(1, 64), sheet_count);
    spoil_at_times(&call);
    make_call(&call);
}

/* ---- on purpose ---- */

/* Good lines of m trains: one is planned and reported on, another is reported on the cells that the
 * first one left. */
static void run_good(uint32_t m)
{
    struct call plan = lay_good_line(PLAN, m);
    make_call(&plan);
    report_once(m, plan.count[SHEET]);
    struct call other = lay_good_line(REPORT, m);
    other.first = one_in(2) ? 1 : between(1, m);
    other.second = draw_delay();
    make_call(&other);
}

/* On purpose and by chance in turn. Every m comes round, the longest line first; so in 512 turns,
 * and those are under 20,000 calls, every m is accepted by every operation. */
void runs(void)
{
    static void (*const by_chance[])(void) = {run_read, run_read, run_write, run_write, run_plan,
                                              run_reports, run_any_cells, run_any_sheet};
    for (uint32_t n = 0; tally.calls < tally.most_calls; n++) {
        faults_on_purpose(n);
        run_good(between(2, 8));
        if (n % 8 == 0) {
            uint32_t m = OBLACHURA_TRAINS - n / 8 % OBLACHURA_TRAINS;
            read_and_write_back(lay_good_line(READ, m));
            run_good(m);
        }
        for (int i = 0; i < 2; i++)
            by_chance[below(sizeof by_chance / sizeof *by_chance)]();
    }
}
