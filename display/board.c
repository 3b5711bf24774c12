/* The board: a line's sheet, the working cells that belong to it, and what is shown of them.
 *
 * A plan is on the board only from the end of an accepted call to the beginning of the next
 * command. It is put there by put_up alone, together with the delays it was made for, and it is
 * taken off before anything else is done. So what refuses, fails or is not understood leaves no
 * plan. */
#include "board.h"

#include <stdio.h>

static void take_off(struct board *board)
{
    board->shown.planned = false;
}

/* Under keep a train departs late by the excess, what the slack leaves of its feeder's delay;
 * otherwise on time. */
static uint32_t departs_late(const struct board *board, const struct line *line, uint32_t i)
{
    if (i == 0 || board->decisions[i] != OBLACHURA_KEEP)
        return 0;
    uint32_t slack = line->departures[i] - line->departures[i - 1] - line->driving[i - 1];
    uint32_t feeder = board->delays[i - 1];
    return feeder > slack ? feeder - slack : 0;
}

static void put_up(struct board *board, const struct line *line)
{
    struct shown *shown = &board->shown;
    shown->trains = line->trains;
    shown->period = line->period;
    for (uint32_t i = 0; i < line->trains; i++) {
        shown->departures[i] = line->departures[i];
        shown->reported[i] = line->delays[i];
        shown->decisions[i] = board->decisions[i];
        shown->departs_late[i] = departs_late(board, line, i);
        shown->arrives_late[i] = board->delays[i];
    }
    shown->total = board->answer[2];
    shown->planned = true;
}

/* Shows what a call left, if it was accepted, and says what it answered. */
static bool settle(struct board *board, uint32_t number)
{
    struct line line;
    struct refusal refusal = {number, board->answer[1], sheet_trains(&board->sheet)};
    bool accepted = number == OBLACHURA_ACCEPTED && sheet_read(&board->sheet, &line, &refusal);
    if (accepted) {
        put_up(board, &line);
        snprintf(board->news.answer, sizeof board->news.answer, "accepted");
    } else {
        refusal_words(board->news.answer, &refusal);
    }
    return accepted;
}

void board_plan(struct board *board)
{
    take_off(board);
    settle(board, oblachura_plan(board->sheet.bytes, board->sheet.count,
                                 board->cells, OBLACHURA_CELLS,
                                 board->decisions, OBLACHURA_TRAINS,
                                 board->delays, OBLACHURA_TRAINS,
                                 board->answer, OBLACHURA_ANSWER));
}

void board_report(struct board *board, uint32_t train, uint32_t delay)
{
    take_off(board);
    bool accepted = settle(board, oblachura_report(board->sheet.bytes, board->sheet.count,
                                                   train, delay,
                                                   board->cells, OBLACHURA_CELLS,
                                                   board->decisions, OBLACHURA_TRAINS,
                                                   board->delays, OBLACHURA_TRAINS,
                                                   board->answer, OBLACHURA_ANSWER));
    if (accepted)
        board->news.taken++;
    else
        board->news.refused++;
}

void board_malformed(struct board *board, const char *fault)
{
    take_off(board);
    snprintf(board->news.answer, sizeof board->news.answer, "not understood: %s", fault);
    board->news.malformed++;
}
