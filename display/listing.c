/* A sheet as text: decimal numbers in the sheet's order, '#' to the end of a line a comment. */
#include "listing.h"

#include <inttypes.h>
#include <stdarg.h>
#include <stdio.h>
#include <string.h>

/* ---- from numbers to text ---- */

static void add_train(struct page *page, const struct line *line, uint32_t train)
{
    page_add(page, "%7" PRIu32 "%7" PRIu32 "%7" PRIu32 "   # train %" PRIu32
             ", station %" PRIu32 " to %" PRIu32 "\n", line->departures[train - 1],
             line->driving[train - 1], line->delays[train - 1], train, train, train + 1);
}

/* The names of a boarding station's pairs, and under each its passengers. */
static void add_station(struct page *page, uint32_t m, uint32_t board, const uint32_t *passengers)
{
    for (uint32_t leave = board + 1; leave <= m + 1; leave++) {
        char pair[16];
        snprintf(pair, sizeof pair, "%" PRIu32 "-%" PRIu32, board, leave);
        page_add(page, leave == board + 1 ? "#%6s" : "%7s", pair);
    }
    page_add(page, "\n");
    for (uint32_t leave = board + 1; leave <= m + 1; leave++)
        page_add(page, "%7" PRIu32, passengers[leave - board - 1]);
    page_add(page, "\n");
}

void listing_of(struct page *page, const struct line *line)
{
    uint32_t m = line->trains;
    page_add(page, "# trains, period\n%7" PRIu32 "%7" PRIu32 "\n", m, line->period);
    page_add(page, "# departure, driving time, source delay\n");
    for (uint32_t train = 1; train <= m; train++)
        add_train(page, line, train);
    page_add(page, "# passengers from station to station\n");
    const uint32_t *passengers = line->passengers;
    for (uint32_t board = 1; board <= m; board++) {
        add_station(page, m, board, passengers);
        passengers += m + 1 - board;
    }
}

/* ---- from text to numbers ---- */

/* A text that is being read, and on which of its lines everything stood. */
struct source {
    struct text rest;
    uint32_t at;                                /* the line that was taken last */
    uint32_t head_at, train_at[OBLACHURA_TRAINS], station_at[OBLACHURA_TRAINS];
    char *fault;
};

__attribute__((format(printf, 3, 4)))
static bool wrong(struct source *source, uint32_t at, const char *format, ...)
{
    int used = snprintf(source->fault, FAULT_ROOM, "line %" PRIu32 ": ", at);
    va_list values;
    va_start(values, format);
    vsnprintf(source->fault + used, FAULT_ROOM - (size_t)used, format, values);
    va_end(values);
    return false;
}

/* Takes the next line, without its comment; false at the end of the text. */
static bool next_line(struct source *source, struct text *line)
{
    struct text *rest = &source->rest;
    if (rest->count == 0)
        return false;
    const char *end = memchr(rest->bytes, '\n', rest->count);
    size_t length = end == NULL ? rest->count : (size_t)(end - rest->bytes);
    const char *comment = memchr(rest->bytes, '#', length);
    size_t kept = comment == NULL ? length : (size_t)(comment - rest->bytes);
    *line = without_return((struct text){rest->bytes, kept});
    skip(rest, end == NULL ? length : length + 1);
    source->at++;
    return true;
}

/* Takes lines up to the next that has a word. */
static bool next_full_line(struct source *source, struct text *line)
{
    while (next_line(source, line)) {
        struct text after = *line, word;
        if (next_word(&after, &word))
            return true;
    }
    return false;
}

static bool take_number(struct source *source, struct text word, uint32_t *number)
{
    char shown[25];
    printable(shown, sizeof shown - 1, word);
    switch (number_of(word, number)) {
    case NUMBER_FINE: return true;
    case NUMBER_LARGE: return wrong(source, source->at, "%s is over 4294967295", shown);
    default: return wrong(source, source->at, "'%s' is not a decimal number", shown);
    }
}

/* Takes a line of exactly `count` numbers; `name` says what they are. */
static bool take_numbers(struct source *source, const char *name, uint32_t *numbers, size_t count)
{
    struct text line, word;
    if (!next_full_line(source, &line))
        return wrong(source, source->at > 0 ? source->at : 1, "the text ends before %s", name);
    size_t found = 0;
    for (; next_word(&line, &word); found++)
        if (found < count && !take_number(source, word, &numbers[found]))
            return false;
    return found == count
        || wrong(source, source->at, "expected %zu for %s, found %zu", count, name, found);
}

static bool take_head(struct source *source, struct line *line)
{
    uint32_t numbers[2];
    if (!take_numbers(source, "trains and period", numbers, 2))
        return false;
    line->trains = numbers[0];
    line->period = numbers[1];
    source->head_at = source->at;
    return true;
}

static bool take_train(struct source *source, struct line *line, uint32_t i)
{
    char name[80];
    uint32_t numbers[3];
    snprintf(name, sizeof name, "train %" PRIu32 " (departure, driving time, delay)", i + 1);
    if (!take_numbers(source, name, numbers, 3))
        return false;
    line->departures[i] = numbers[0];
    line->driving[i] = numbers[1];
    line->delays[i] = numbers[2];
    source->train_at[i] = source->at;
    return true;
}

static bool take_station(struct source *source, uint32_t m, uint32_t i, uint32_t *passengers)
{
    char name[80];
    snprintf(name, sizeof name, "the passengers from station %" PRIu32, i + 1);
    if (!take_numbers(source, name, passengers, m - i))
        return false;
    source->station_at[i] = source->at;
    return true;
}

/* Takes all numbers of a line; of one whose trains are not 1 to 64 only these, to be refused. */
static bool take_line(struct source *source, struct line *line)
{
    if (!take_head(source, line))
        return false;
    uint32_t m = line->trains;
    if (m > OBLACHURA_TRAINS || m == 0)
        return true;
    for (uint32_t i = 0; i < m; i++)
        if (!take_train(source, line, i))
            return false;
    uint32_t *passengers = line->passengers;
    for (uint32_t i = 0; i < m; passengers += m - i, i++)
        if (!take_station(source, m, i, passengers))
            return false;
    struct text more;
    return !next_full_line(source, &more)
        || wrong(source, source->at, "the text goes on after its last number");
}

/* The line of the text where a refused number stands. */
static uint32_t refused_at(const struct source *source, const struct refusal *refusal)
{
    switch (refusal->number) {
    case OBLACHURA_DEPARTURE: case OBLACHURA_DRIVING: case OBLACHURA_DELAY: case OBLACHURA_SLACK:
        return source->train_at[refusal->place - 1];
    case OBLACHURA_PASSENGERS:
        return source->station_at[pair_of_field(refusal->trains, refusal->place).board - 1];
    default:
        return source->head_at;
    }
}

bool sheet_of_listing(struct text text, struct sheet *sheet, char fault[FAULT_ROOM])
{
    struct source source = {.rest = text, .fault = fault};
    struct line line;
    struct refusal refusal;
    if (!take_line(&source, &line))
        return false;
    if (sheet_write(&line, sheet, &refusal))
        return true;
    char words[REFUSAL_ROOM];
    refusal_words(words, &refusal);
    return wrong(&source, refused_at(&source, &refusal), "%s", words);
}
