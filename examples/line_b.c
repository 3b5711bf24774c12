/* A display in small: plans line B of the customer's document 01, takes one report and shows each
 * answer. What it prints is in line_b.out.
 *
 *   cc -Iinclude examples/line_b.c target/staticlib/liboblachura.a -o target/line_b */
#include <inttypes.h>
#include <stdio.h>

#include "oblachura.h"

/* All that the calls lend and keep from one to the next. Cells and sheet belong together: a report
 * changes both. */
struct desk {
    uint8_t sheet[OBLACHURA_SHEET];
    size_t sheet_count;
    uint32_t trains;
    uint64_t cells[OBLACHURA_CELLS];
    uint8_t decisions[OBLACHURA_TRAINS];
    uint32_t delays[OBLACHURA_TRAINS];
    uint64_t answer[OBLACHURA_ANSWER];      /* number, place, total */
};

/* Line B: three trains, a period of 10 minutes, and the passengers 1-2, 1-3, 1-4, 2-3, 2-4, 3-4. */
static const uint32_t departures[] = {10, 30, 55};
static const uint32_t driving[] = {15, 20, 12};
static const uint32_t source_delays[] = {9, 3, 0};
static const uint32_t passengers[] = {4, 6, 5, 10, 2, 20};

static uint32_t write_line_b(struct desk *desk)
{
    desk->trains = 3;
    uint32_t number = oblachura_write(desk->trains, 10, departures, 3, driving, 3,
                                      source_delays, 3, passengers, 6,
                                      desk->sheet, OBLACHURA_SHEET,
                                      desk->answer, OBLACHURA_ANSWER);
    desk->sheet_count = (size_t)desk->answer[2];
    return number;
}

static uint32_t plan(struct desk *desk)
{
    return oblachura_plan(desk->sheet, desk->sheet_count, desk->cells, OBLACHURA_CELLS,
                          desk->decisions, OBLACHURA_TRAINS, desk->delays, OBLACHURA_TRAINS,
                          desk->answer, OBLACHURA_ANSWER);
}

static uint32_t report(struct desk *desk, uint32_t train, uint32_t delay)
{
    return oblachura_report(desk->sheet, desk->sheet_count, train, delay,
                            desk->cells, OBLACHURA_CELLS, desk->decisions, OBLACHURA_TRAINS,
                            desk->delays, OBLACHURA_TRAINS, desk->answer, OBLACHURA_ANSWER);
}

/* Shows what a call answered. A refused one shows its number and place and nothing of the buffers:
 * they are blank then or, on 10, hold what they held before the call. */
static void show(const struct desk *desk, uint32_t number)
{
    if (number != OBLACHURA_ACCEPTED) {
        printf("refused %" PRIu32 " %" PRIu64 "\n", number, desk->answer[1]);
        return;
    }
    printf("total %" PRIu64 "\n", desk->answer[2]);
    for (uint32_t i = 0; i < desk->trains; i++) {
        const char *decision = desk->decisions[i] == OBLACHURA_KEEP ? "keep" : "go";
        printf("%" PRIu32 " %s %" PRIu32 "\n", i + 1, i == 0 ? "-" : decision, desk->delays[i]);
    }
}

int main(void)
{
    static struct desk desk;
    uint32_t number = write_line_b(&desk);
    if (number != OBLACHURA_ACCEPTED) {
        show(&desk, number);
        return 1;
    }
    printf("line B as planned\n");
    show(&desk, plan(&desk));

    printf("train 1 is 5 minutes late, not 9\n");
    show(&desk, report(&desk, 1, 5));

    /* There is no train 4. Sheet and cells stay as they were, so the next report may follow. */
    printf("train 4 is 5 minutes late\n");
    show(&desk, report(&desk, 4, 5));
    return 0;
}
