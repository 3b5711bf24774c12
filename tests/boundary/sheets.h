/* Lines and sheets by chance, good and damaged ones. */
#ifndef SHEETS_H
#define SHEETS_H

#include "paper.h"

#include <stdbool.h>
#include <stddef.h>
#include <stdint.h>

#define SHEET_ROOM 8192              /* the longest sheet that is tried */

/* A number of trains: half of them up to 8, the others up to 12 or up to 64. */
uint32_t draw_trains(void);

/* A source delay that is allowed, often a small one or one at the edge. */
uint32_t draw_delay(void);

/* A line that every operation accepts. */
void draw_line(struct paper_line *line, uint32_t m);

/* A number past most of any size, at times one that would pass if cut to the field's width. */
uint32_t draw_over(uint32_t most, unsigned width);

/* Damages a line so that a row of 01's table refuses it, T or a number at train i; slack only from
 * train 2. Numbers for write's lists may have any size; others fit their fields, so that 13 is for
 * lists alone. Rows that no number of a line can meet leave it as it is. */
void damage_number(struct paper_line *line, enum paper_outcome row, uint32_t i, bool for_lists);

/* The same at one to five places by chance. */
void damage_line(struct paper_line *line, bool for_lists);

/* Damages the bytes of a packed sheet so that a row refuses it; returns their new number. */
size_t damage_sheet(uint8_t *sheet, size_t count, enum paper_outcome row);

/* Damages them in any way. */
size_t damage_bytes(uint8_t *sheet, size_t count);

/* Any sheet, good or bad; returns its bytes. */
size_t draw_sheet(uint8_t *sheet);

#endif
