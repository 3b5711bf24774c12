/* One call of the archive beside the paper side: lists laid, both called, all compared. */
#define _GNU_SOURCE
#include "calls.h"

#include "chance.h"
#include "lent.h"

#include <inttypes.h>
#include <signal.h>
#include <stdio.h>
#include <stdlib.h>
#include <string.h>
#include <unistd.h>

struct desk desk;
struct tally tally;

static struct lent lent[LISTS];
static struct call last;                         /* the call under way or just made */
static uint8_t sheet_before[SHEET_ROOM];
static volatile sig_atomic_t in_archive;

struct shape {
    const char *name;
    size_t width, room;
    void *on_desk;
};

static const struct shape shapes[LISTS] = {
    [SHEET] = {"sheet", 1, SHEET_ROOM, desk.sheet},
    [DEPARTURES] = {"departures", 4, TRAIN_ROOM, desk.departures},
    [DRIVING] = {"driving", 4, TRAIN_ROOM, desk.driving},
    [DELAYS] = {"delays", 4, TRAIN_ROOM, desk.delays},
    [PASSENGERS] = {"passengers", 4, PAIR_ROOM, desk.passengers},
    [CELLS] = {"cells", 8, CELL_ROOM, desk.cells},
    [DECISIONS] = {"decisions", 1, DECISION_ROOM, desk.decisions},
    [ANSWER] = {"answer", 8, ANSWER_ROOM, desk.answer},
};

const char *operation_name(enum operation operation)
{
    static const char *const names[OPERATIONS] = {"read", "write", "plan", "report"};
    return names[operation];
}

const char *list_name(enum list list)
{
    return shapes[list].name;
}

size_t list_room(enum list list)
{
    return shapes[list].room;
}

bool has_list(enum operation operation, enum list list)
{
    switch (list) {
    case SHEET: case DELAYS: case ANSWER: return true;
    case CELLS: case DECISIONS: return operation == PLAN || operation == REPORT;
    default: return operation == READ || operation == WRITE;
    }
}

bool can_give(enum operation operation, enum paper_outcome outcome)
{
    switch (outcome) {
    case PAPER_LENGTH_LISTS: case PAPER_DRIVING:
        return operation == WRITE;
    case PAPER_SHORT_START: case PAPER_SHORT_FOR_M: case PAPER_LONG: case PAPER_FILLING:
        return operation != WRITE;
    case PAPER_NO_SUCH_TRAIN: case PAPER_DELAY_REPORTED: case PAPER_CELL:
        return operation == REPORT;
    default:
        return true;
    }
}

/* Lists that the header lends as const. */
static bool is_const(enum operation operation, enum list list)
{
    if (operation == WRITE)
        return list != SHEET && list != ANSWER;
    return operation != REPORT && list == SHEET;
}

/* Lists that the operation writes nothing into when it comes out so. */
static bool is_left(enum operation operation, enum list list, enum paper_outcome outcome)
{
    if (outcome == PAPER_ACCEPTED || outcome == PAPER_LENGTH_ANSWER)
        return outcome != PAPER_ACCEPTED;
    if (list == ANSWER)
        return false;
    bool blanked = operation >= PLAN && (list == DECISIONS || list == DELAYS);
    return outcome == PAPER_LENGTH_BUFFER || !blanked;
}

struct call right_call(enum operation operation, size_t sheet_count)
{
    struct call call = {.operation = operation};
    call.count[SHEET] = sheet_count;
    call.count[DEPARTURES] = call.count[DRIVING] = call.count[DELAYS] = OBLACHURA_TRAINS;
    call.count[PASSENGERS] = OBLACHURA_PAIRS;
    call.count[CELLS] = OBLACHURA_CELLS;
    call.count[DECISIONS] = OBLACHURA_TRAINS;
    call.count[ANSWER] = operation == READ ? OBLACHURA_READ_ANSWER : OBLACHURA_ANSWER;
    return call;
}

struct call right_write(uint32_t m, uint32_t period)
{
    struct call call = right_call(WRITE, OBLACHURA_SHEET);
    call.first = m;
    call.second = period;
    call.count[DEPARTURES] = call.count[DRIVING] = call.count[DELAYS] = m;
    call.count[PASSENGERS] = (size_t)m * (m + 1) / 2;
    return call;
}

/* ---- what the lists hold before a call ---- */

static void scribble(uint8_t *at, size_t bytes)
{
    for (; bytes >= 8; bytes -= 8, at += 8) {
        uint64_t number = chance();
        memcpy(at, &number, 8);
    }
}

void scribble_outputs(enum operation operation)
{
    for (enum list l = 0; l < LISTS; l++) {
        bool read_too = operation == REPORT && (l == SHEET || l == CELLS);
        if (has_list(operation, l) && !is_const(operation, l) && !read_too)
            scribble(shapes[l].on_desk, shapes[l].width * shapes[l].room);
    }
}

static void lay_lists(const struct paper_line *line)
{
    size_t field = 0;
    for (uint32_t i = 1; i <= line->m; i++) {
        desk.departures[i - 1] = line->departure[i];
        desk.driving[i - 1] = line->driving[i];
        desk.delays[i - 1] = line->source[i];
        for (uint32_t j = i + 1; j <= line->m + 1; j++)
            desk.passengers[field++] = line->passengers[i][j];
    }
}

struct call lay(enum operation operation, const struct paper_line *line)
{
    scribble_outputs(operation);
    if (operation != WRITE)
        return right_call(operation, paper_pack(line, desk.sheet));
    lay_lists(line);
    return right_write(line->m, line->period);
}

/* ---- telling ---- */

static void print_hex(const char *title, const uint8_t *bytes, size_t n)
{
    printf("%s, %zu bytes:", title, n);
    for (size_t i = 0; i < n; i++)
        printf(i % 32 == 0 ? "\n  %02X" : " %02X", bytes[i]);
    printf("\n");
}

static void print_numbers(const char *title, const uint32_t *numbers, size_t n)
{
    printf("%s, %zu numbers:", title, n);
    for (size_t i = 0; i < n; i++)
        printf(i % 16 == 0 ? "\n  %" PRIu32 : " %" PRIu32, numbers[i]);
    printf("\n");
}

static void print_call(void)
{
    printf("seed %" PRIu64 ", call %" PRIu64 ", %s", tally.seed, tally.calls,
           operation_name(last.operation));
    if (last.operation == WRITE)
        printf(", m %" PRIu32 ", period %" PRIu32, last.first, last.second);
    if (last.operation == REPORT)
        printf(", train %" PRIu32 ", delay %" PRIu32, last.first, last.second);
    printf("\nlengths:");
    for (enum list l = 0; l < LISTS; l++)
        if (has_list(last.operation, l))
            printf(" %s %zu", list_name(l), last.count[l]);
    printf("%s\n", last.one_list ? ", the lists by train are one" : "");
}

static void print_input(void)
{
    if (last.operation != WRITE) {
        print_hex("sheet before the call", sheet_before, last.count[SHEET]);
        return;
    }
    print_numbers("departures", desk.departures, last.count[DEPARTURES]);
    print_numbers("driving", desk.driving, last.count[DRIVING]);
    print_numbers("delays", desk.delays, last.count[DELAYS]);
    print_numbers("passengers", desk.passengers, last.count[PASSENGERS]);
}

_Noreturn void differ(const char *what, size_t index, uint64_t expected, uint64_t got)
{
    if (tally.brief) {
        printf("caught after %" PRIu64 " calls, %s: %s[%zu], wrong %" PRIu64 ", archive %" PRIu64
               "\n", tally.calls, operation_name(last.operation), what, index, expected, got);
        exit(CAUGHT);
    }
    printf("DIFFERENCE in %s, index %zu: expected %" PRIu64 ", got %" PRIu64 "\n",
           what, index, expected, got);
    print_call();
    print_input();
    exit(1);
}

/* ---- signals: only what is safe in a handler ---- */

static size_t add_text(char *line, size_t at, const char *text)
{
    while (*text != '\0')
        line[at++] = *text++;
    return at;
}

static size_t add_number(char *line, size_t at, uint64_t number)
{
    char digits[20];
    size_t n = 0;
    do
        digits[n++] = (char)('0' + number % 10);
    while ((number /= 10) > 0);
    while (n > 0)
        line[at++] = digits[--n];
    return at;
}

static void on_signal(int number, siginfo_t *info, void *context)
{
    char line[256];
    size_t at = add_text(line, 0, in_archive ? "SIGNAL in the archive: " : "SIGNAL in the test: ");
    (void)context;
    at = add_number(line, at, (uint64_t)number);
    at = add_text(line, at, ", ");
    at = add_text(line, at, operation_name(last.operation));
    at = add_text(line, at, ", call ");
    at = add_number(line, at, tally.calls);
    at = add_text(line, at, ", seed ");
    at = add_number(line, at, tally.seed);
    for (enum list l = 0; l < LISTS; l++)
        if (number == SIGSEGV && lent_holds(&lent[l], info->si_addr)) {
            at = add_text(line, at, ", touched what it must not at ");
            at = add_text(line, at, shapes[l].name);
        }
    at = add_text(line, at, "\n");
    if (write(STDERR_FILENO, line, at) < 0)
        _exit(2);
    _exit(1);
}

static void catch_signals(void)
{
    static uint8_t stack[65536];
    static const int signals[5] = {SIGSEGV, SIGBUS, SIGILL, SIGFPE, SIGABRT};
    stack_t other = {.ss_sp = stack, .ss_size = sizeof stack};
    struct sigaction action = {.sa_sigaction = on_signal, .sa_flags = SA_SIGINFO | SA_ONSTACK};
    sigemptyset(&action.sa_mask);
    sigaltstack(&other, NULL);
    for (int i = 0; i < 5; i++)
        sigaction(signals[i], &action, NULL);
}

void calls_begin(void)
{
    for (enum list l = 0; l < LISTS; l++)
        lent_make(&lent[l], shapes[l].width, shapes[l].room);
    catch_signals();
}

/* ---- the two sides ---- */

/* The list by train that write is lent as l. */
static enum list by_train(enum list l)
{
    return last.one_list ? DEPARTURES : l;
}

static struct paper_verdict ask_paper(void)
{
    const struct call *c = &last;
    void *p[LISTS];
    for (enum list l = 0; l < LISTS; l++)
        p[l] = lent[l].twin_at;
    switch (c->operation) {
    case READ:
        return paper_read(p[SHEET], c->count[SHEET], p[DEPARTURES], c->count[DEPARTURES],
                          p[DRIVING], c->count[DRIVING], p[DELAYS], c->count[DELAYS],
                          p[PASSENGERS], c->count[PASSENGERS], p[ANSWER], c->count[ANSWER]);
    case WRITE:
        return paper_write(c->first, c->second, p[DEPARTURES], c->count[DEPARTURES],
                           p[by_train(DRIVING)], c->count[DRIVING],
                           p[by_train(DELAYS)], c->count[DELAYS],
                           p[PASSENGERS], c->count[PASSENGERS],
                           p[SHEET], c->count[SHEET], p[ANSWER], c->count[ANSWER]);
    case PLAN:
        return paper_plan(p[SHEET], c->count[SHEET], p[CELLS], c->count[CELLS],
                          p[DECISIONS], c->count[DECISIONS], p[DELAYS], c->count[DELAYS],
                          p[ANSWER], c->count[ANSWER]);
    default:
        return paper_report(p[SHEET], c->count[SHEET], c->first, c->second,
                            p[CELLS], c->count[CELLS], p[DECISIONS], c->count[DECISIONS],
                            p[DELAYS], c->count[DELAYS], p[ANSWER], c->count[ANSWER]);
    }
}

static uint32_t ask_archive(void)
{
    const struct call *c = &last;
    void *p[LISTS];
    for (enum list l = 0; l < LISTS; l++)
        p[l] = lent[l].at;
    switch (c->operation) {
    case READ:
        return oblachura_read(p[SHEET], c->count[SHEET], p[DEPARTURES], c->count[DEPARTURES],
                              p[DRIVING], c->count[DRIVING], p[DELAYS], c->count[DELAYS],
                              p[PASSENGERS], c->count[PASSENGERS], p[ANSWER], c->count[ANSWER]);
    case WRITE:
        return oblachura_write(c->first, c->second, p[DEPARTURES], c->count[DEPARTURES],
                               p[by_train(DRIVING)], c->count[DRIVING],
                               p[by_train(DELAYS)], c->count[DELAYS],
                               p[PASSENGERS], c->count[PASSENGERS],
                               p[SHEET], c->count[SHEET], p[ANSWER], c->count[ANSWER]);
    case PLAN:
        return oblachura_plan(p[SHEET], c->count[SHEET], p[CELLS], c->count[CELLS],
                              p[DECISIONS], c->count[DECISIONS], p[DELAYS], c->count[DELAYS],
                              p[ANSWER], c->count[ANSWER]);
    default:
        return oblachura_report(p[SHEET], c->count[SHEET], c->first, c->second,
                                p[CELLS], c->count[CELLS], p[DECISIONS], c->count[DECISIONS],
                                p[DELAYS], c->count[DELAYS], p[ANSWER], c->count[ANSWER]);
    }
}

/* Const lists are forbidden to be written in some calls, lists that the paper leaves alone in some
 * of those; the latter not on behalf of a paper side that is wrong. */
static bool forbidden(enum list l, enum paper_outcome outcome, bool left_too)
{
    if (is_const(last.operation, l))
        return true;
    return left_too && paper_wrong == PAPER_RIGHT && is_left(last.operation, l, outcome);
}

static uint32_t ask_archive_protected(enum paper_outcome outcome)
{
    bool protect = one_in(4), left_too = one_in(2);
    for (enum list l = 0; protect && l < LISTS; l++)
        if (has_list(last.operation, l) && forbidden(l, outcome, left_too))
            lent_write_protect(&lent[l], true);
    in_archive = 1;
    uint32_t number = ask_archive();
    in_archive = 0;
    for (enum list l = 0; protect && l < LISTS; l++)
        lent_write_protect(&lent[l], false);
    return number;
}

static void compare_list(enum list l)
{
    char outside[64];
    struct lent_difference d = lent_compare(&lent[l]);
    if (!d.found)
        return;
    snprintf(outside, sizeof outside, "bytes outside %s", list_name(l));
    differ(d.outside ? outside : list_name(l), d.index, d.expected, d.got);
}

struct paper_verdict make_call(const struct call *call)
{
    last = *call;
    tally.calls++;
    memcpy(sheet_before, desk.sheet, sizeof sheet_before);
    for (enum list l = 0; l < LISTS; l++)
        if (has_list(last.operation, l))
            lent_lay(&lent[l], last.count[l], shapes[l].on_desk);

    struct paper_verdict v = ask_paper();
    uint32_t number = ask_archive_protected(v.outcome);

    if (number != paper_number(v.outcome))
        differ("returned number", 0, paper_number(v.outcome), number);
    for (enum list l = 0; l < LISTS; l++)
        if (has_list(last.operation, l))
            compare_list(l);
    for (enum list l = 0; l < LISTS; l++)
        if (has_list(last.operation, l) && last.count[l] > 0)
            memcpy(shapes[l].on_desk, lent[l].at, last.count[l] * shapes[l].width);
    tally.by_outcome[last.operation][v.outcome]++;
    if (v.outcome == PAPER_ACCEPTED)
        tally.by_trains[last.operation][desk.sheet[0] >> 1]++;
    return v;
}
