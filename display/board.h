/* The board: a line's sheet, the working cells that belong to it, and what is shown of them. */
#ifndef BOARD_H
#define BOARD_H

#include "frame.h"
#include "sheet.h"

/* Sheet and cells go from call to call together and are written by nobody else. */
struct board {
    struct sheet sheet;
    uint64_t cells[OBLACHURA_CELLS];
    uint8_t decisions[OBLACHURA_TRAINS];
    uint32_t delays[OBLACHURA_TRAINS];
    uint64_t answer[OBLACHURA_ANSWER];
    struct shown shown;
    struct news news;
};

/* Plans the sheet as it stands. */
void board_plan(struct board *board);

/* Reports a train's new source delay. */
void board_report(struct board *board, uint32_t train, uint32_t delay);

/* Takes the plan off the board because of text that is no command; `fault` says what is wrong. */
void board_malformed(struct board *board, const char *fault);

#endif
