/* How much stack each operation takes: it runs on a stack that was painted before, and the paint
 * that is left tells how deep it went. */
#define _GNU_SOURCE
#include "stack.h"

#include "calls.h"

#include <stdint.h>
#include <stdio.h>
#include <stdlib.h>
#include <string.h>
#include <sys/mman.h>
#include <ucontext.h>
#include <unistd.h>

#define STACK_ROOM (1024 * 1024)

static ucontext_t here, there;
static enum operation operation;                 /* OPERATIONS is none: the cost of a call */
static size_t sheet_count;
static uint32_t number, m;

static void ask(void)
{
    size_t trains = OBLACHURA_TRAINS, pairs = OBLACHURA_PAIRS, cells = OBLACHURA_CELLS;
    switch (operation) {
    case READ:
        number = oblachura_read(desk.sheet, sheet_count, desk.departures, trains, desk.driving,
                                trains, desk.delays, trains, desk.passengers, pairs, desk.answer,
                                OBLACHURA_READ_ANSWER);
        break;
    case WRITE:
        number = oblachura_write(m, 1440, desk.departures, m, desk.driving, m, desk.delays, m,
                                 desk.passengers, (size_t)m * (m + 1) / 2, desk.sheet,
                                 OBLACHURA_SHEET, desk.answer, OBLACHURA_ANSWER);
        break;
    case PLAN:
        number = oblachura_plan(desk.sheet, sheet_count, desk.cells, cells, desk.decisions, trains,
                                desk.delays, trains, desk.answer, OBLACHURA_ANSWER);
        break;
    case REPORT:
        number = oblachura_report(desk.sheet, sheet_count, m, 1, desk.cells, cells,
                                  desk.decisions, trains, desk.delays, trains, desk.answer,
                                  OBLACHURA_ANSWER);
        break;
    default:
        number = 0;
    }
}

static uint8_t *make_stack(void)
{
    size_t page = (size_t)sysconf(_SC_PAGESIZE);
    uint8_t *pages = mmap(NULL, STACK_ROOM + page, PROT_READ | PROT_WRITE,
                          MAP_PRIVATE | MAP_ANONYMOUS, -1, 0);
    if (pages == MAP_FAILED || mprotect(pages, page, PROT_NONE) != 0) {
        perror("stack");
        exit(1);
    }
    return pages + page;
}

/* The bytes of the stack that the operation painted over. */
static size_t depth_of(enum operation asked, uint8_t paint)
{
    static uint8_t *stack;
    if (stack == NULL)
        stack = make_stack();
    memset(stack, paint, STACK_ROOM);
    operation = asked;
    getcontext(&there);
    there.uc_stack.ss_sp = stack;
    there.uc_stack.ss_size = STACK_ROOM;
    there.uc_link = &here;
    makecontext(&there, ask, 0);
    swapcontext(&here, &there);
    size_t untouched = 0;
    while (untouched < STACK_ROOM && stack[untouched] == paint)
        untouched++;
    return STACK_ROOM - untouched;
}

/* A line that every operation accepts and that draws its numbers from all of their ranges. */
static void lay_line(uint32_t trains)
{
    struct paper_line line = {.m = trains, .period = 1440};
    m = trains;
    for (uint32_t i = 1; i <= m; i++) {
        line.departure[i] = 40 * i;
        line.driving[i] = 30 + i % 11;
        line.source[i] = 1440 / i;
        for (uint32_t j = i + 1; j <= m + 1; j++)
            line.passengers[i][j] = i * j * 7919 % 10001;
    }
    memset(&desk, 0, sizeof desk);
    sheet_count = paper_pack(&line, desk.sheet);
}

/* The paint may be the very byte that a call writes, so it is another at each of three calls, and
 * the deepest counts. A call before them is for what a program does once, when it first calls a
 * function. */
static size_t stack_of(enum operation asked)
{
    size_t deepest = 0;
    static const uint8_t paints[4] = {0xD1, 0xD1, 0x2E, 0x97};
    for (int i = 0; i < 4; i++) {
        size_t depth = depth_of(asked, paints[i]);
        if (number != 0) {
            printf("stack: %s refused its line with %u\n", operation_name(asked), (unsigned)number);
            exit(1);
        }
        if (i > 0 && depth > deepest)
            deepest = depth;
    }
    return deepest;
}

bool stack_is_enough(void)
{
    static const enum operation order[OPERATIONS] = {READ, WRITE, PLAN, REPORT};
    size_t most = 0, call = stack_of(OPERATIONS);
    lay_line(OBLACHURA_TRAINS);
    printf("bytes of stack:");
    for (int i = 0; i < OPERATIONS; i++) {
        size_t used = stack_of(order[i]) - call;
        printf(" %s %zu,", operation_name(order[i]), used);
        most = used > most ? used : most;
    }
    printf(" at most %zu; promised below %d\n", most, OBLACHURA_STACK);
    return most < OBLACHURA_STACK;
}
