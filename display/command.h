/* The board's commands, one a line. */
#ifndef COMMAND_H
#define COMMAND_H

#include "words.h"

struct command {
    enum { COMMAND_REPORT, COMMAND_PLAN, COMMAND_QUIT, COMMAND_MALFORMED } kind;
    uint32_t train, delay;      /* of a report */
    const char *fault;          /* of malformed text: what is wrong with it */
};

/* The command of a line, given without its end. An empty line is malformed like any other that is
 * no command: it may be what is left of a report. */
struct command command_of(struct text line);

#endif
