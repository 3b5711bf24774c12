/* "Sums to check by hand" and the list "By program" of document 01, with the numbers it prints. */
#include "fixed.h"

#include "calls.h"

#include <stdio.h>
#include <string.h>

static const uint8_t sheet_a[9] = {0x02, 0x02, 0x80, 0x28, 0x0F, 0x00, 0xE0, 0x01, 0x80};

static const struct paper_line line_a = {
    .m = 1, .period = 10, .departure = {0, 10}, .driving = {0, 15}, .source = {0, 7},
    .passengers[1][2] = 3,
};

static const struct paper_line line_b = {
    .m = 3, .period = 10,
    .departure = {0, 10, 30, 55}, .driving = {0, 15, 20, 12}, .source = {0, 9, 3, 0},
    .passengers[1][2] = 4, .passengers[1][3] = 6, .passengers[1][4] = 5,
    .passengers[2][3] = 10, .passengers[2][4] = 2, .passengers[3][4] = 20,
};

/* Of c and d 01 says no more of the timetable than that the slack is 0. */
static const struct paper_line line_c = {
    .m = 2, .period = 10,
    .departure = {0, 0, 10}, .driving = {0, 10, 10}, .source = {0, 5, 0},
    .passengers[1][2] = 0, .passengers[1][3] = 1, .passengers[2][3] = 1,
};

static const struct paper_line line_d = {
    .m = 2, .period = 1,
    .departure = {0, 0, 10}, .driving = {0, 10, 10}, .source = {0, 0, 10},
    .passengers[1][3] = 1,
};

static void expect(const char *name, const char *what, size_t index, uint64_t expected,
                   uint64_t got)
{
    char text[96];
    snprintf(text, sizeof text, "case %s of the paper, %s", name, what);
    if (expected != got)
        differ(text, index, expected, got);
}

static void expect_answer(const char *name, uint64_t number, uint64_t place, uint64_t third)
{
    expect(name, "number", 0, number, desk.answer[0]);
    expect(name, "place", 0, place, desk.answer[1]);
    expect(name, "third number", 0, third, desk.answer[2]);
}

static void expect_row(const char *name, uint32_t k, uint32_t m, const uint64_t *row)
{
    for (uint32_t l = k; l <= m; l++)
        expect(name, "cells", 64 * (k - 1) + (l - 1), row[l - k],
               desk.cells[64 * (k - 1) + (l - 1)]);
}

/* Decisions and delays of m trains, and what stands after them. */
static void expect_plan(const char *name, uint32_t m, const uint8_t *decisions,
                        const uint32_t *delays)
{
    for (uint32_t i = 0; i < OBLACHURA_TRAINS; i++) {
        expect(name, "decisions", i, i < m ? decisions[i] : OBLACHURA_GO, desk.decisions[i]);
        expect(name, "delays", i, i < m ? delays[i] : 0, desk.delays[i]);
    }
}

static void expect_blanks(const char *name)
{
    for (uint32_t i = 0; i < OBLACHURA_TRAINS; i++) {
        expect(name, "decisions", i, OBLACHURA_BLANK, desk.decisions[i]);
        expect(name, "delays", i, 0, desk.delays[i]);
    }
}

static void plan_bytes(const uint8_t *sheet, size_t n)
{
    struct call call = right_call(PLAN, n);
    memset(&desk, 0xCC, sizeof desk);
    if (n > 0)
        memcpy(desk.sheet, sheet, n);
    make_call(&call);
}

static size_t plan_line(const struct paper_line *line)
{
    uint8_t sheet[SHEET_ROOM];
    size_t n = paper_pack(line, sheet);
    plan_bytes(sheet, n);
    return n;
}

static void report(size_t sheet_count, uint32_t train, uint32_t delay)
{
    struct call call = right_call(REPORT, sheet_count);
    call.first = train;
    call.second = delay;
    make_call(&call);
}

static void sums_of_policies(void)
{
    static const uint8_t keep_keep[65] = {0, 0, 1, 1}, keep_go[65] = {0, 0, 1, 0};
    static const uint8_t go_keep[65] = {0, 0, 0, 1}, go_go[65] = {0, 0, 0, 0};
    expect("b1", "total on the paper side", 0, 202, paper_total(&line_b, keep_keep));
    expect("b2", "total on the paper side", 0, 218, paper_total(&line_b, keep_go));
    expect("b3", "total on the paper side", 0, 176, paper_total(&line_b, go_keep));
    expect("b3", "total on the paper side", 1, 176, paper_total(&line_b, go_go));
}

static void sums_of_line_b(void)
{
    size_t n = plan_line(&line_b);
    expect_answer("b4", 0, 0, 176);
    expect_plan("b4", 3, (uint8_t[]){0, 0, 1}, (uint32_t[]){9, 3, 0});
    expect_row("b4", 1, 3, (uint64_t[]){176, 140, 54});
    expect_row("b4", 2, 3, (uint64_t[]){30, 0});
    expect_row("b4", 3, 3, (uint64_t[]){0});

    report(n, 1, 5);
    expect_answer("b7", 0, 0, 68);
    expect_plan("b7", 3, (uint8_t[]){0, 1, 1}, (uint32_t[]){5, 3, 0});
    expect_row("b7", 1, 3, (uint64_t[]){68, 48, 0});

    report(n, 2, 6);
    expect_answer("b8", 0, 0, 143);
    expect_plan("b8", 3, (uint8_t[]){0, 1, 1}, (uint32_t[]){5, 6, 1});
    expect_row("b8", 1, 3, (uint64_t[]){143, 123, 27});
    expect_row("b8", 2, 3, (uint64_t[]){80, 20});
}

static void sums_of_other_lines(void)
{
    struct paper_line line = line_b;
    line.period = 12;
    plan_line(&line);
    expect_answer("b5", 0, 0, 198);
    expect("b5", "decisions", 1, 0, desk.decisions[1]);
    expect("b5", "decisions", 2, 1, desk.decisions[2]);
    line.period = 13;
    plan_line(&line);
    expect_answer("b6", 0, 0, 202);
    expect("b6", "decisions", 1, 1, desk.decisions[1]);
    expect("b6", "decisions", 2, 1, desk.decisions[2]);
    plan_line(&line_c);
    expect_answer("c", 0, 0, 10);
    expect("c", "decisions", 1, 1, desk.decisions[1]);
    plan_line(&line_d);
    expect_answer("d", 0, 0, 10);
    plan_bytes(sheet_a, sizeof sheet_a);
    expect_answer("a", 0, 0, 21);
    expect_plan("a", 1, (uint8_t[]){0}, (uint32_t[]){7});
}

static void refused(const char *name, const uint8_t *sheet, size_t n, uint64_t number,
                    uint64_t place)
{
    plan_bytes(sheet, n);
    expect_answer(name, number, place, 0);
    expect_blanks(name);
}

static void refused_line(const char *name, const struct paper_line *line, uint64_t number,
                         uint64_t place)
{
    uint8_t sheet[SHEET_ROOM];
    refused(name, sheet, paper_pack(line, sheet), number, place);
}

static void passes(const char *name, const struct paper_line *line)
{
    plan_line(line);
    expect(name, "number", 0, 0, desk.answer[0]);
    expect(name, "place", 0, 0, desk.answer[1]);
}

static void refusals_of_bytes(void)
{
    uint8_t sheet[10] = {0};
    memcpy(sheet, sheet_a, sizeof sheet_a);
    refused("empty sheet", sheet, 0, 1, 0);
    refused("A without its last byte", sheet, 8, 1, 0);
    refused("A with another byte", sheet, 10, 4, 0);
    sheet[8] = 0x81;
    refused("A ending in 81", sheet, 9, 9, 0);
    memcpy(sheet, sheet_a, sizeof sheet_a);
    sheet[0] = 65 << 1;
    refused("m 65", sheet, 9, 2, 0);
}

static void refusals_of_fields(void)
{
    struct paper_line a = line_a, b = line_b;
    a.period = 1440;
    passes("T 1,440", &a);
    a.period = 1441;
    refused_line("T 1,441", &a, 3, 0);
    a = line_a;
    a.source[1] = 1440;
    passes("delay 1,440", &a);
    a.source[1] = 1441;
    refused_line("delay 1,441", &a, 6, 1);
    b.departure[2] = 25;
    passes("B with train 2 at 25", &b);
    b.departure[2] = 24;
    refused_line("B with train 2 at 24", &b, 7, 2);
    a = line_a;
    a.passengers[1][2] = 10000;
    passes("10,000 passengers", &a);
    a.passengers[1][2] = 10001;
    refused_line("10,001 passengers", &a, 8, 1);
}

/* Sheet A, read into its numbers and written from them. */
static void sheet_a_both_ways(void)
{
    struct call read = right_call(READ, sizeof sheet_a);
    memset(&desk, 0xCC, sizeof desk);
    memcpy(desk.sheet, sheet_a, sizeof sheet_a);
    make_call(&read);
    expect("A read", "number", 0, 0, desk.answer[0]);
    expect("A read", "m", 0, 1, desk.answer[2]);
    expect("A read", "T", 0, 10, desk.answer[3]);
    expect("A read", "departures", 0, 10, desk.departures[0]);
    expect("A read", "driving", 0, 15, desk.driving[0]);
    expect("A read", "delays", 0, 7, desk.delays[0]);
    expect("A read", "passengers", 0, 3, desk.passengers[0]);
    expect("A read", "passengers", 2079, 0, desk.passengers[2079]);

    struct call write = right_write(1, 10);
    memset(desk.sheet, 0xCC, sizeof desk.sheet);
    make_call(&write);
    expect_answer("A written", 0, 0, sizeof sheet_a);
    for (size_t i = 0; i < OBLACHURA_SHEET; i++)
        expect("A written", "bytes", i, i < sizeof sheet_a ? sheet_a[i] : 0xCC, desk.sheet[i]);
}

/* The lengths that 01 prints: 9 bytes for m = 1, 26 for m = 3, 3,907 for m = 64. */
static void lengths_of_sheets(void)
{
    static const struct { uint32_t m; size_t bytes; } lengths[3] = {{1, 9}, {3, 26}, {64, 3907}};
    for (int i = 0; i < 3; i++) {
        struct call write = right_write(lengths[i].m, 1);
        memset(&desk, 0, sizeof desk);
        make_call(&write);
        expect_answer("lengths of sheets", 0, 0, lengths[i].bytes);
    }
}

/* The header's names have 01's numbers. */
static void names_of_the_header(void)
{
    static const struct { enum paper_outcome outcome; enum oblachura_refusal named; } names[] = {
        {PAPER_ACCEPTED, OBLACHURA_ACCEPTED}, {PAPER_LENGTH_BUFFER, OBLACHURA_LENGTH},
        {PAPER_SHORT_START, OBLACHURA_SHORT}, {PAPER_TRAIN_COUNT, OBLACHURA_TRAIN_COUNT},
        {PAPER_PERIOD, OBLACHURA_PERIOD}, {PAPER_LONG, OBLACHURA_LONG},
        {PAPER_DEPARTURE, OBLACHURA_DEPARTURE}, {PAPER_DRIVING, OBLACHURA_DRIVING},
        {PAPER_DELAY_SHEET, OBLACHURA_DELAY}, {PAPER_SLACK, OBLACHURA_SLACK},
        {PAPER_PASSENGERS, OBLACHURA_PASSENGERS}, {PAPER_FILLING, OBLACHURA_FILLING},
        {PAPER_NO_SUCH_TRAIN, OBLACHURA_NO_SUCH_TRAIN}, {PAPER_CELL, OBLACHURA_CELL},
    };
    for (size_t i = 0; i < sizeof names / sizeof *names; i++)
        expect("header", "number of refusal", i, paper_number(names[i].outcome), names[i].named);
    expect("header", "go", 0, 0, OBLACHURA_GO);
    expect("header", "keep", 0, 1, OBLACHURA_KEEP);
    expect("header", "blank", 0, 2, OBLACHURA_BLANK);
}

void fixed_cases(void)
{
    names_of_the_header();
    sums_of_policies();
    sums_of_line_b();
    sums_of_other_lines();
    refusals_of_bytes();
    refusals_of_fields();
    sheet_a_both_ways();
    lengths_of_sheets();
}
