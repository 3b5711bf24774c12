/* Refusals in words: the one place that knows a reason for each number. */
#include "refusal.h"

#include "oblachura.h"

#include <inttypes.h>
#include <stdbool.h>
#include <stdio.h>
#include <string.h>

/* In a reason '#' stands for the place. */
static const struct reason {
    uint32_t number;
    const char *words;
} reasons[] = {
    {OBLACHURA_LENGTH, "a buffer has another length than stated"},
    {OBLACHURA_SHORT, "the sheet is too short"},
    {OBLACHURA_TRAIN_COUNT, "a line has 1 to 64 trains"},
    {OBLACHURA_PERIOD, "a period is 1 to 1440 minutes"},
    {OBLACHURA_LONG, "the sheet is too long"},
    {OBLACHURA_DEPARTURE, "train # departs after minute 2879"},
    {OBLACHURA_DRIVING, "train # drives over 1023 minutes"},
    {OBLACHURA_DELAY, "train # has a delay over 1440 minutes"},
    {OBLACHURA_SLACK, "train # departs before its feeder arrives"},
    {OBLACHURA_PASSENGERS, "over 10000 passengers from station #"},
    {OBLACHURA_FILLING, "a bit behind the last field is not 0"},
    {OBLACHURA_NO_SUCH_TRAIN, "the line has no such train"},
    {OBLACHURA_CELL, "a working cell of row # is over the limit"},
};

static const char *reason_of(uint32_t number)
{
    for (size_t i = 0; i < sizeof reasons / sizeof reasons[0]; i++)
        if (reasons[i].number == number)
            return reasons[i].words;
    return "for a reason that this display does not know";
}

/* Fields go by boarding station: m from station 1, one less from each next one. */
struct pair pair_of_field(uint32_t m, uint64_t field)
{
    uint32_t board = 1;
    for (; board < m && field > m + 1 - board; board++)
        field -= m + 1 - board;
    return (struct pair){board, board + (uint32_t)field};
}

static void name_place(char *name, size_t room, const struct refusal *refusal)
{
    if (refusal->number == OBLACHURA_PASSENGERS) {
        struct pair pair = pair_of_field(refusal->trains, refusal->place);
        snprintf(name, room, "%" PRIu32 " to %" PRIu32, pair.board, pair.leave);
    } else {
        snprintf(name, room, "%" PRIu64, refusal->place);
    }
}

void refusal_words(char words[REFUSAL_ROOM], const struct refusal *refusal)
{
    char name[32];
    name_place(name, sizeof name, refusal);
    const char *reason = reason_of(refusal->number);
    int before = (int)strcspn(reason, "#");
    bool placed = reason[before] == '#';
    snprintf(words, REFUSAL_ROOM, "refused %" PRIu32 ", place %" PRIu64 ": %.*s%s%s",
             refusal->number, refusal->place, before, reason,
             placed ? name : "", placed ? reason + before + 1 : "");
}
