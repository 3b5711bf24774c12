/* The boundary test: calls the archive through its C header, beside the paper side, and compares
 * everything that each call returns and stores. */
#define _GNU_SOURCE
#include "calls.h"
#include "chance.h"
#include "fixed.h"
#include "runs.h"
#include "stack.h"

#include <errno.h>
#include <inttypes.h>
#include <stdio.h>
#include <stdlib.h>
#include <string.h>
#include <sys/wait.h>
#include <unistd.h>

#define CALLS 200000
#define CALLS_FOR_A_MISTAKE 10000    /* of 1,000 seeds none took 500 */
#define ENOUGH_CALLS 20000           /* for every number and every m to be met, by any seed */

struct options {
    uint64_t seed, calls;            /* 0 calls: the default */
    bool wrong, stack;
};

static const char usage[] =
    "usage: boundary [--seed N] [--calls N] [--wrong] [--stack] [--help]\n"
    "  --seed N      where the numbers by chance begin (default 20041)\n"
    "  --calls N     calls to make, to the end of a run (default 200000, or 10000 for each\n"
    "                mistake); from 20000 on every number has to be met and every m accepted\n"
    "  --wrong       let the paper side make each of its mistakes, which must be caught\n"
    "  --stack       print the bytes of stack of each operation and nothing else\n";

/* ---- the table of what was met ---- */

static const char *const rows[PAPER_OUTCOMES] = {
    [PAPER_ACCEPTED] = "accepted",
    [PAPER_LENGTH_ANSWER] = "10 answer list",
    [PAPER_LENGTH_BUFFER] = "10 other buffer",
    [PAPER_SHORT_START] = " 1 under 3 bytes",
    [PAPER_TRAIN_COUNT] = " 2 m",
    [PAPER_PERIOD] = " 3 T",
    [PAPER_LENGTH_LISTS] = "10 write's lists",
    [PAPER_SHORT_FOR_M] = " 1 shorter than m",
    [PAPER_LONG] = " 4 longer than m",
    [PAPER_DEPARTURE] = " 5 departure",
    [PAPER_DRIVING] = "13 driving time",
    [PAPER_DELAY_SHEET] = " 6 source delay",
    [PAPER_SLACK] = " 7 slack",
    [PAPER_PASSENGERS] = " 8 passengers",
    [PAPER_FILLING] = " 9 filling bit",
    [PAPER_NO_SUCH_TRAIN] = "11 no such train",
    [PAPER_DELAY_REPORTED] = " 6 reported delay",
    [PAPER_CELL] = "12 cell",
};

static void print_count(enum operation operation, enum paper_outcome outcome)
{
    if (can_give(operation, outcome))
        printf("%10" PRIu64, tally.by_outcome[operation][outcome]);
    else
        printf("%10s", "-");
}

static void print_table(void)
{
    printf("%-20s", "calls");
    for (enum operation o = 0; o < OPERATIONS; o++)
        printf("%10s", operation_name(o));
    printf("\n");
    for (enum paper_outcome r = 0; r < PAPER_OUTCOMES; r++) {
        printf("%-20s", rows[r]);
        for (enum operation o = 0; o < OPERATIONS; o++)
            print_count(o, r);
        printf("\n");
    }
}

static bool all_met(void)
{
    bool met = true;
    for (enum operation o = 0; o < OPERATIONS; o++)
        for (enum paper_outcome r = 0; r < PAPER_OUTCOMES; r++)
            if (can_give(o, r) && tally.by_outcome[o][r] == 0) {
                printf("NOT MET: %s, %s\n", operation_name(o), rows[r]);
                met = false;
            }
    return met;
}

static bool all_trains_met(void)
{
    bool met = true;
    for (enum operation o = 0; o < OPERATIONS; o++)
        for (uint32_t m = 1; m <= OBLACHURA_TRAINS; m++)
            if (tally.by_trains[o][m] == 0) {
                printf("NOT MET: %s accepted with %" PRIu32 " trains\n", operation_name(o), m);
                met = false;
            }
    return met;
}

/* ---- the three things to do ---- */

static int test_right(void)
{
    fixed_cases();
    printf("cases of the paper: %" PRIu64 " calls as printed there\n", tally.calls);
    runs();
    print_table();
    bool met = true;
    if (tally.most_calls >= ENOUGH_CALLS) {
        met &= all_met();
        met &= all_trains_met();
    }
    bool stack = stack_is_enough();
    if (!stack)
        printf("TOO MUCH STACK\n");
    bool passed = met && stack;
    printf("%s: %" PRIu64 " calls, seed %" PRIu64 "\n", passed ? "passed" : "FAILED", tally.calls,
           tally.seed);
    return passed ? 0 : 1;
}

/* Tries one mistake in a process of its own, since a difference ends the program. The cases of the
 * paper are left out, so that it is the runs that have to catch it. */
static bool caught(enum paper_mistake mistake)
{
    int status = 0;
    printf("%-42s ", paper_mistakes[mistake]);
    fflush(stdout);
    pid_t child = fork();
    if (child == 0) {
        paper_wrong = mistake;
        tally.brief = true;
        runs();
        printf("NOT CAUGHT in %" PRIu64 " calls\n", tally.calls);
        exit(0);
    }
    if (child < 0 || waitpid(child, &status, 0) != child) {
        perror("fork");
        exit(1);
    }
    return WIFEXITED(status) && WEXITSTATUS(status) == CAUGHT;
}

static int test_wrong(void)
{
    int missed = 0;
    for (enum paper_mistake mistake = PAPER_RIGHT + 1; mistake < PAPER_MISTAKES; mistake++)
        missed += !caught(mistake);
    printf("%s: %d of %d mistakes caught\n", missed == 0 ? "passed" : "FAILED",
           PAPER_MISTAKES - 1 - missed, PAPER_MISTAKES - 1);
    return missed == 0 ? 0 : 1;
}

/* ---- options ---- */

static int refuse_options(void)
{
    fputs(usage, stderr);
    return 2;
}

static bool take_number(const char *text, uint64_t *number)
{
    char *end;
    if (text == NULL || *text < '0' || *text > '9')
        return false;
    errno = 0;
    *number = strtoull(text, &end, 10);
    return errno == 0 && *end == '\0';
}

static bool take_options(char **arguments, struct options *options)
{
    for (char **a = arguments; *a != NULL; a++) {
        uint64_t *number = NULL;
        if (strcmp(*a, "--seed") == 0)
            number = &options->seed;
        else if (strcmp(*a, "--calls") == 0)
            number = &options->calls;
        else if (strcmp(*a, "--wrong") == 0)
            options->wrong = true;
        else if (strcmp(*a, "--stack") == 0)
            options->stack = true;
        else
            return false;
        if (number != NULL && !take_number(*++a, number))
            return false;
    }
    return true;
}

int main(int argc, char **argv)
{
    struct options options = {.seed = 20041};
    if (argc == 2 && strcmp(argv[1], "--help") == 0) {
        fputs(usage, stdout);
        return 0;
    }
    if (!take_options(argv + (argc > 0), &options))
        return refuse_options();
    setvbuf(stdout, NULL, _IOLBF, 0);
    if (options.stack)
        return stack_is_enough() ? 0 : 1;
    printf("seed %" PRIu64 "\n", options.seed);
    tally.seed = options.seed;
    tally.most_calls = options.wrong ? CALLS_FOR_A_MISTAKE : CALLS;
    if (options.calls > 0)
        tally.most_calls = options.calls;
    chance_seed(options.seed);
    calls_begin();
    return options.wrong ? test_wrong() : test_right();
}
