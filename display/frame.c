/* The board as text. */
#include "frame.h"

#include <inttypes.h>

/* From so many trains on the titles stand below the last train too. */
#define LONG_BOARD 17

static void add_titles(struct page *page)
{
    page_add(page, "train  departs  reported  decision  departs late  arrives late\n");
}

static const char *decision_word(const struct shown *shown, uint32_t i)
{
    if (i == 0)
        return "-";
    return shown->decisions[i] == OBLACHURA_KEEP ? "keep" : "go";
}

static void add_train(struct page *page, const struct shown *shown, uint32_t i)
{
    page_add(page, "%5" PRIu32 "  %7" PRIu32 "  %8" PRIu32,
             i + 1, shown->departures[i], shown->reported[i]);
    if (shown->planned)
        page_add(page, "  %-8s  %12" PRIu32 "  %12" PRIu32,
                 decision_word(shown, i), shown->departs_late[i], shown->arrives_late[i]);
    page_add(page, "\n");
}

static void add_line(struct page *page, const struct shown *shown)
{
    add_titles(page);
    for (uint32_t i = 0; i < shown->trains; i++)
        add_train(page, shown, i);
    if (shown->trains >= LONG_BOARD)
        add_titles(page);
    page_add(page, "\n");
}

static void add_total(struct page *page, const struct shown *shown)
{
    if (shown->planned)
        page_add(page, "total     %" PRIu64 " passenger-minutes\n", shown->total);
    else
        page_add(page, "total     no plan\n");
}

void frame(struct page *page, const char *title, const struct shown *shown,
           const struct news *news)
{
    page_add(page, "%s\n", title);
    if (shown->trains > 0) {
        page_add(page, "%" PRIu32 " %s, period %" PRIu32 "; times in minutes\n\n",
                 shown->trains, shown->trains == 1 ? "train" : "trains", shown->period);
        add_line(page, shown);
    }
    add_total(page, shown);
    page_add(page, "reports   %" PRIu32 " taken, %" PRIu32 " refused, %" PRIu32 " not understood\n",
             news->taken, news->refused, news->malformed);
    page_add(page, "command   %s\n", news->command);
    page_add(page, "answer    %s\n", news->answer);
}
