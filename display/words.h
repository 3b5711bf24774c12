/* Words and decimal numbers of a line of text. */
#ifndef WORDS_H
#define WORDS_H

#include <stdbool.h>
#include <stddef.h>
#include <stdint.h>

/* A part of somebody's text; it has no end mark and may hold any bytes. */
struct text {
    const char *bytes;
    size_t count;
};

/* Takes so many bytes off the front. */
void skip(struct text *text, size_t count);

/* The line without the carriage return that may stand at its end. */
struct text without_return(struct text line);

/* Takes the next word off the line; false if there is none. Blanks and tabs part words. */
bool next_word(struct text *line, struct text *word);

bool is_word(struct text word, const char *expected);

/* A number is decimal digits alone, without a sign, and has 32 bits. */
enum number_fault { NUMBER_FINE, NUMBER_NONE, NUMBER_LARGE };
enum number_fault number_of(struct text word, uint32_t *number);

/* The first `width` bytes, fit to be shown: what is not printable ASCII, such as a command to the
 * terminal, becomes '?'; a text that is cut ends in "..". `shown` has room for one byte more. */
void printable(char *shown, size_t width, struct text text);

#endif
