/* A sheet as text: decimal numbers in the sheet's order, '#' to the end of a line a comment.
 *   m and T;
 *   a line for each train: departure, driving time, source delay;
 *   a line for each boarding station: the passengers to each later station. */
#ifndef LISTING_H
#define LISTING_H

#include "page.h"
#include "sheet.h"
#include "words.h"

/* The most that is read of a text. */
#define LISTING_ROOM 1048576

/* The numbers with comments that name the trains and the pairs of stations. */
void listing_of(struct page *page, const struct line *line);

/* The sheet of a text; false if there is none, and then `fault` says what is wrong, and where. */
#define FAULT_ROOM 160
bool sheet_of_listing(struct text text, struct sheet *sheet, char fault[FAULT_ROOM]);

#endif
