/* Compares the archive with the two plain engines: first that all three answer and leave the same,
 * on accepted and on refused calls; then what a plan and a report cost, as ratios of calls timed in
 * turn. From the repository's root:
 *
 *   gcc -std=c11 -O3 -falign-functions=64 -Wall -Wextra -Werror -Iinclude \
 *       -DBUILT_WITH='"gcc -O3 -falign-functions=64"' \
 *       bench/bench.c bench/plain_bits.c bench/plain_bytes.c liboblachura.a -o PROGRAM
 *
 * Without the alignment the ratios move by a tenth, with the place where the plain code lies.
 *
 * Ends with 1 if an output differs, with 2 on an unknown option, with 3 if --strict is given and
 * the goal is missed, else with 0. */
#define _POSIX_C_SOURCE 200809L

#include <stdbool.h>
#include <stdio.h>
#include <stdlib.h>
#include <string.h>
#include <time.h>

#include "oblachura.h"
#include "plain.h"

#ifndef BUILT_WITH
#define BUILT_WITH "flags not stated (gcc -O3 -falign-functions=64 is meant)"
#endif

#define GOAL 1.5
#define BATCH_NS 1e6        /* about what one engine's calls of one round take */
#define ROW_NS 2.2e9        /* a row ends after this, whatever the rounds */
#define MOST_ROUNDS 1000
#define TRIES 1000          /* damaged calls per line */

enum { ARCHIVE, BITS, BYTES, ENGINES };

static const struct engine {
    plan_function *plan;
    report_function *report;
    const char *name;
} engines[ENGINES] = {
    {oblachura_plan, oblachura_report, "archive"},
    {plain_bits_plan, plain_bits_report, "bits"},
    {plain_bytes_plan, plain_bytes_report, "bytes"},
};

/* What a call reads and writes. There is room for a sheet that is too long, and no padding, so that
 * two desks can be compared as bytes. */
struct desk {
    uint64_t cells[OBLACHURA_CELLS];
    uint64_t answer[OBLACHURA_ANSWER];
    uint64_t bytes;
    uint32_t delays[OBLACHURA_TRAINS];
    uint8_t decisions[OBLACHURA_TRAINS];
    uint8_t sheet[OBLACHURA_SHEET + 5];
};

/* A plan, or the report of a train; and what is taken off the lengths of the buffers. */
struct call {
    bool report;
    uint32_t train, delay;
    size_t no_cell, no_decision, no_delay, no_answer;
};

static uint32_t make(const struct engine *engine, struct desk *desk, const struct call *call)
{
    size_t cells = OBLACHURA_CELLS - call->no_cell;
    size_t decisions = OBLACHURA_TRAINS - call->no_decision;
    size_t delays = OBLACHURA_TRAINS - call->no_delay;
    size_t answer = OBLACHURA_ANSWER - call->no_answer;
    if (call->report)
        return engine->report(desk->sheet, desk->bytes, call->train, call->delay,
                              desk->cells, cells, desk->decisions, decisions,
                              desk->delays, delays, desk->answer, answer);
    return engine->plan(desk->sheet, desk->bytes, desk->cells, cells, desk->decisions, decisions,
                        desk->delays, delays, desk->answer, answer);
}

/* Numbers from 0 to `most`; those that follow a seed are always the same. */
static uint64_t state;

static uint32_t some(uint32_t most)
{
    state += UINT64_C(0x9E3779B97F4A7C15);
    uint64_t z = (state ^ state >> 30) * UINT64_C(0xBF58476D1CE4E5B9);
    z = (z ^ z >> 27) * UINT64_C(0x94D049BB133111EB);
    return (uint32_t)((z ^ z >> 31) % (most + UINT64_C(1)));
}

/* Lines of one kind: with a short period and long delays most connections are missed, with a long
 * period and short delays none. */
static const struct kind {
    uint32_t least_period, most_period, most_delay, most_slack, most_passengers;
} kinds[] = {
    {1, 5, 1440, 5, 10000},
    {10, 30, 60, 12, 50},
    {30, 60, 25, 12, 400},
    {60, 60, 12, 8, 100},
    {1000, 1440, 10, 15, 10000},
    {1440, 1440, 3, 5, 200},
};

enum { LINES = sizeof kinds / sizeof *kinds };

/* Appends a field to the sheet; *at is the bit where it begins. */
static void append(uint8_t *sheet, size_t *at, unsigned width, uint32_t value)
{
    for (unsigned k = width; k-- > 0; ++*at)
        sheet[*at / 8] |= (uint8_t)((value >> k & 1) << (7 - *at % 8));
}

/* The line of `m` trains of a kind, with marks in the buffers. Driving times of at most 25 and
 * slacks of at most 15 keep 64 departures below 2,880. */
static void make_line(struct desk *desk, uint32_t m, const struct kind *kind)
{
    state = m * LINES + (uint64_t)(kind - kinds);
    memset(desk, 0, sizeof *desk);
    size_t at = 0;
    append(desk->sheet, &at, 7, m);
    uint32_t longer = some(kind->most_period - kind->least_period);
    append(desk->sheet, &at, 11, kind->least_period + longer);
    uint32_t departure = some(200);
    for (uint32_t i = 0; i < m; i++) {
        uint32_t driving = some(25);
        append(desk->sheet, &at, 12, departure);
        append(desk->sheet, &at, 10, driving);
        append(desk->sheet, &at, 11, some(kind->most_delay));
        departure += driving + some(kind->most_slack);
    }
    for (uint32_t f = 0; f < m * (m + 1) / 2; f++)
        append(desk->sheet, &at, 14, some(kind->most_passengers));
    desk->bytes = (at + 7) / 8;
    for (uint32_t i = 0; i < OBLACHURA_CELLS; i++)
        desk->cells[i] = some(1000000);
    memset(desk->decisions, 7, sizeof desk->decisions);
    memset(desk->delays, 77, sizeof desk->delays);
}

/* The calls compared, and how often each number was answered. */
static unsigned long compared;
static unsigned long answered[16];

/* Makes one call with each engine, each on a copy of the desk; the desk becomes what the last left.
 * Ends the program if two differ. */
static uint32_t agreed(struct desk *desk, const struct call *call)
{
    static struct desk after[ENGINES];
    uint32_t number[ENGINES];
    for (int e = 0; e < ENGINES; e++) {
        memcpy(&after[e], desk, sizeof *desk);
        number[e] = make(&engines[e], &after[e], call);
        if (number[e] == number[0] && memcmp(&after[e], &after[0], sizeof *desk) == 0)
            continue;
        printf("%s and %s differ: %s of %u trains, train %u at %u: %u and %u\n",
               engines[0].name, engines[e].name, call->report ? "report" : "plan",
               desk->sheet[0] / 2u, call->train, call->delay, number[0], number[e]);
        exit(1);
    }
    compared++;
    answered[number[0] % 16]++;
    memcpy(desk, &after[0], sizeof *desk);
    return number[0];
}

static struct call some_report(uint32_t m)
{
    struct call call = {.report = true};
    call.train = 1 + some(m - 1);
    call.delay = some(1440);
    return call;
}

/* Spoils a call in one way or, at times, in none. */
static void spoil(struct desk *desk, struct call *call, uint32_t m)
{
    uint32_t row = some(m - 1), column = some(m - 1), coin = some(1), other = some(1);
    uint8_t bit = (uint8_t)(1u << some(7));
    switch (some(12)) {
    case 0: desk->bytes -= 1 + coin; break;
    case 1: desk->bytes++; break;
    case 2: desk->bytes = some(8); break;
    case 3: desk->sheet[some(2)] ^= bit; break;
    case 4: case 5: desk->sheet[some(33 * m / 8)] ^= bit; break;
    case 6: case 7: desk->sheet[some((uint32_t)desk->bytes - 1)] ^= bit; break;
    case 8: desk->sheet[desk->bytes - 1] |= (uint8_t)(1 + coin); break;
    case 9: call->train = coin ? m + 1 : other ? 0 : UINT32_MAX; break;
    case 10: call->delay = coin ? 1441 : UINT32_MAX; break;
    case 11: desk->cells[64 * row + column] = UINT64_C(1916928000000) + coin; break;
    default:
        call->no_cell = some(1);
        call->no_decision = some(1);
        call->no_delay = coin;
        call->no_answer = other;
    }
}

/* What is timed. */
enum { OPERATIONS = 4, DELAYS = 60 };

static const char *const operations[OPERATIONS] = {
    "plan", "report, train 1", "report, train m/2", "report, train m",
};

/* The call of an operation on a line of `m` trains. Reports bring another delay at each turn. */
static struct call call_of(int operation, uint32_t m, unsigned turn)
{
    const uint32_t trains[OPERATIONS] = {0, 1, (m + 1) / 2, m};
    struct call call = {.report = operation > 0};
    call.train = trains[operation];
    call.delay = turn * 7 % DELAYS;
    return call;
}

static void accept(struct desk *desk, struct call call)
{
    if (agreed(desk, &call) != 0) {
        printf("a valid call was refused\n");
        exit(1);
    }
}

/* A line's reports on marks, the calls that are timed, and damaged calls. */
static void compare_line(uint32_t m, const struct kind *kind)
{
    static struct desk desk, spoilt;
    make_line(&desk, m, kind);
    for (int k = 0; k < 5; k++)
        accept(&desk, some_report(m));
    for (int operation = 0; operation < OPERATIONS; operation++)
        for (unsigned turn = 0; turn < DELAYS; turn++)
            accept(&desk, call_of(operation, m, turn));
    for (int k = 0; k < TRIES; k++) {
        struct call call = some_report(m);
        call.report = some(1);
        memcpy(&spoilt, &desk, sizeof desk);
        spoil(&spoilt, &call, m);
        agreed(&spoilt, &call);
    }
}

/* That all engines agree, and that every number of plan and report was among the answers. */
static void compare_all(void)
{
    static const uint32_t trains[] = {1, 2, 3, 16, 32, 64};
    for (size_t i = 0; i < sizeof trains / sizeof *trains; i++)
        for (size_t k = 0; k < LINES; k++)
            compare_line(trains[i], &kinds[k]);
    printf("archive and plain C agree on %lu calls, %lu of them accepted\n", compared, answered[0]);
    for (unsigned number = 0; number <= 12; number++)
        if (answered[number] == 0) {
            printf("no call was answered with %u\n", number);
            exit(1);
        }
}

static double now_ns(void)
{
    struct timespec time;
    clock_gettime(CLOCK_MONOTONIC, &time);
    return 1e9 * (double)time.tv_sec + (double)time.tv_nsec;
}

/* The time of so many calls of an operation, one line after the other. */
static double time_calls(unsigned e, struct desk *desks, int operation, uint32_t m, unsigned calls)
{
    double start = now_ns();
    for (unsigned c = 0; c < calls; c++) {
        struct call call = call_of(operation, m, c);
        make(&engines[e], &desks[c % LINES], &call);
    }
    return now_ns() - start;
}

static int by_size(const void *a, const void *b)
{
    double x = *(const double *)a, y = *(const double *)b;
    return (x > y) - (x < y);
}

static double median(double *list, unsigned n)
{
    qsort(list, n, sizeof *list, by_size);
    return n % 2 ? list[n / 2] : (list[n / 2 - 1] + list[n / 2]) / 2;
}

/* One row of the table: ns per call, and the archive's ratios to the others. */
struct row {
    double ns[ENGINES], ratio[ENGINES];
};

/* Times an operation on all lines of `m` trains, in rounds; in each the engines take turns, and
 * another begins. What they leave must still be the same. */
static struct row time_row(int operation, uint32_t m, unsigned rounds)
{
    static struct desk desks[ENGINES][LINES];
    static double ns[ENGINES][MOST_ROUNDS], ratio[ENGINES][MOST_ROUNDS];
    for (unsigned e = 0; e < ENGINES; e++) {
        for (int k = 0; k < LINES; k++)
            make_line(&desks[e][k], m, &kinds[k]);
        time_calls(e, desks[e], 0, m, LINES);
    }
    double once = time_calls(BITS, desks[BITS], operation, m, 20 * LINES) / 20;
    unsigned calls = LINES * (1 + (unsigned)(BATCH_NS / once));
    double start = now_ns();
    unsigned n = 0;
    while (n < rounds && (n == 0 || now_ns() - start < ROW_NS)) {
        for (unsigned turn = 0; turn < ENGINES; turn++) {
            unsigned e = (n + turn) % ENGINES;
            ns[e][n] = time_calls(e, desks[e], operation, m, calls) / calls;
        }
        for (int e = 0; e < ENGINES; e++)
            ratio[e][n] = ns[ARCHIVE][n] / ns[e][n];
        n++;
    }
    struct row row;
    for (int e = 0; e < ENGINES; e++) {
        row.ns[e] = median(ns[e], n);
        row.ratio[e] = median(ratio[e], n);
        if (memcmp(desks[e], desks[ARCHIVE], sizeof desks[e]) != 0) {
            printf("%s left something else than the archive\n", engines[e].name);
            exit(1);
        }
    }
    return row;
}

/* The largest ratio to the engine that reads bit by bit, and how many rows are over the goal. */
struct verdict {
    double most;
    unsigned rows, over;
};

static void show_row(int operation, uint32_t m, unsigned rounds, struct verdict *verdict)
{
    struct row row = time_row(operation, m, rounds);
    printf("%-20s%4u%11.0f%11.0f%11.0f%14.2f%15.2f\n", operations[operation], m, row.ns[ARCHIVE],
           row.ns[BITS], row.ns[BYTES], row.ratio[BITS], row.ratio[BYTES]);
    fflush(stdout);
    verdict->rows++;
    verdict->over += row.ratio[BITS] > GOAL;
    if (row.ratio[BITS] > verdict->most)
        verdict->most = row.ratio[BITS];
}

static struct verdict show_table(unsigned rounds)
{
    struct verdict verdict = {0, 0, 0};
    printf("%-20s%4s%11s%11s%11s%14s%15s\n", "operation", "m", "archive ns", "bits ns", "bytes ns",
           "archive/bits", "archive/bytes");
    for (uint32_t m = 16; m <= 64; m *= 2)
        for (int operation = 0; operation < OPERATIONS; operation++)
            show_row(operation, m, rounds, &verdict);
    return verdict;
}

static const char help[] =
    "bench [--rounds N] [--strict] [--emulated]\n"
    "  --rounds N   rounds of each row, 1 to 1000 (201); a row ends after 2.2 s in any case\n"
    "  --strict     ends with 3 if the goal is missed\n"
    "  --emulated   says that the times are an emulator's\n"
    "  --help       this\n";

int main(int argc, char **argv)
{
    unsigned long rounds = 201;
    bool strict = false, emulated = false;
    for (int i = 1; i < argc; i++) {
        if (strcmp(argv[i], "--strict") == 0) {
            strict = true;
        } else if (strcmp(argv[i], "--emulated") == 0) {
            emulated = true;
        } else if (strcmp(argv[i], "--help") == 0) {
            fputs(help, stdout);
            return 0;
        } else if (strcmp(argv[i], "--rounds") == 0 && i + 1 < argc) {
            rounds = strtoul(argv[++i], NULL, 10);
        } else {
            rounds = 0;
        }
    }
    if (rounds < 1 || rounds > MOST_ROUNDS) {
        fputs(help, stderr);
        return 2;
    }
    compare_all();
    printf("plain C built with %s; medians of up to %lu rounds\n", BUILT_WITH, rounds);
    if (emulated)
        printf("under an emulator: times, ratios and goal below are a hint only\n");
    struct verdict verdict = show_table((unsigned)rounds);
    printf("goal: archive at most %.1f times plain C that reads bit by bit: ", GOAL);
    if (verdict.over == 0) {
        printf("met\n");
        return 0;
    }
    printf("not met: %u of %u rows are over it, up to %.2f\n", verdict.over, verdict.rows,
           verdict.most);
    return strict ? 3 : 0;
}
