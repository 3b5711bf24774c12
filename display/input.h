/* Lines from standard input, until it ends or a signal asks to stop. */
#ifndef INPUT_H
#define INPUT_H

#include "words.h"

#include <signal.h>
#include <termios.h>

/* What comes next on the input. */
enum input_next {
    INPUT_LINE,         /* a whole line */
    INPUT_LONG,         /* the first part of a line that is too long; the rest is passed over */
    INPUT_CUT,          /* the input ended within a line: a number in it may lack its last digits */
    INPUT_END,
    INPUT_FAILED,       /* errno says why */
    INPUT_STOPPED       /* a signal asked to stop */
};

#define INPUT_WIDTH 1024

struct input {
    char bytes[INPUT_WIDTH + 1];
    size_t first, count;        /* the bytes that were read and not yet given */
    bool within_long;           /* the rest of a long line is still to come */
    bool ended;
    bool terminal;
    struct termios modes;       /* of the terminal, before */
};

/* From input_open to input_close a signal that ends a program is only noted, so that the board can
 * be closed first; the second one of its kind ends the program at once. What would stop it and
 * leave a plan on the screen, as Ctrl-Z does, is ignored. A terminal drops nothing that was typed,
 * or is still to be shown, because of a signal. */
void input_open(struct input *input);
void input_close(const struct input *input);

/* The next line, without its end; it is good until the next call. */
enum input_next input_line(struct input *input, struct text *line);

#endif
