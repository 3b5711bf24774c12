/* The board's commands, one a line. */
#include "command.h"

static struct command malformed(const char *fault)
{
    return (struct command){.kind = COMMAND_MALFORMED, .fault = fault};
}

static struct command report_of(struct text train_word, struct text delay_word)
{
    struct command report = {.kind = COMMAND_REPORT};
    enum number_fault train = number_of(train_word, &report.train);
    enum number_fault delay = number_of(delay_word, &report.delay);
    if (train == NUMBER_NONE || delay == NUMBER_NONE)
        return malformed("train and delay are whole numbers, as 1 5");
    if (train == NUMBER_LARGE || delay == NUMBER_LARGE)
        return malformed("a number is over 4294967295");
    return report;
}

struct command command_of(struct text line)
{
    struct text first, second, third;
    line = without_return(line);
    if (!next_word(&line, &first))
        return malformed("the line is empty");
    if (!next_word(&line, &second)) {
        if (is_word(first, "plan"))
            return (struct command){.kind = COMMAND_PLAN};
        if (is_word(first, "quit"))
            return (struct command){.kind = COMMAND_QUIT};
        return malformed("a command is TRAIN DELAY, plan or quit");
    }
    if (next_word(&line, &third))
        return malformed("a command has at most two words");
    return report_of(first, second);
}
