/* Lines from standard input, until it ends or a signal asks to stop. */
#include "input.h"

#include <errno.h>
#include <string.h>
#include <sys/select.h>
#include <unistd.h>

/* All that would end the program and can be caught. */
static const int endings[] = {SIGINT, SIGTERM, SIGHUP, SIGQUIT, SIGALRM, SIGUSR1, SIGUSR2,
                              SIGVTALRM, SIGPROF, SIGXCPU};
static const int stops[] = {SIGTSTP, SIGTTIN, SIGTTOU};
#define COUNT(list) (sizeof(list) / sizeof(list)[0])

static volatile sig_atomic_t stopped;

static void note(int signal)
{
    (void)signal;
    stopped = 1;
}

static void catch_signals(void)
{
    struct sigaction action = {.sa_handler = note, .sa_flags = (int)SA_RESETHAND};
    sigemptyset(&action.sa_mask);
    for (size_t i = 0; i < COUNT(endings); i++)
        sigaction(endings[i], &action, NULL);
    for (size_t i = 0; i < COUNT(stops); i++)
        signal(stops[i], SIG_IGN);
}

void input_open(struct input *input)
{
    catch_signals();
    input->first = input->count = 0;
    input->within_long = input->ended = false;
    input->terminal = tcgetattr(STDIN_FILENO, &input->modes) == 0;
    if (input->terminal) {
        struct termios modes = input->modes;
        modes.c_lflag |= NOFLSH;
        tcsetattr(STDIN_FILENO, TCSANOW, &modes);
    }
}

void input_close(const struct input *input)
{
    if (input->terminal)
        tcsetattr(STDIN_FILENO, TCSANOW, &input->modes);
}

/* Waits for input; false if a signal came first, or if that failed. The signals are let in only
 * while it waits: none comes between the look at `stopped` and the wait. */
static bool wait_for_input(void)
{
    sigset_t closed, open;
    sigemptyset(&closed);
    for (size_t i = 0; i < COUNT(endings); i++)
        sigaddset(&closed, endings[i]);
    sigprocmask(SIG_BLOCK, &closed, &open);
    fd_set in;
    FD_ZERO(&in);
    FD_SET(STDIN_FILENO, &in);
    errno = EINTR;
    bool ready = !stopped && pselect(STDIN_FILENO + 1, &in, NULL, NULL, NULL, &open) > 0;
    int error = errno;
    sigprocmask(SIG_SETMASK, &open, NULL);
    errno = error;
    return ready;
}

/* Reads on behind what is there; false if that failed or was stopped. */
static bool read_on(struct input *input)
{
    memmove(input->bytes, input->bytes + input->first, input->count);
    input->first = 0;
    if (!wait_for_input())
        return false;
    ssize_t got = read(STDIN_FILENO, input->bytes + input->count,
                       INPUT_WIDTH + 1 - input->count);
    if (got < 0)
        return false;
    input->count += (size_t)got;
    input->ended = got == 0;
    return true;
}

static void drop(struct input *input, size_t count)
{
    input->first += count;
    input->count -= count;
}

/* The length of the line at hand, or of all bytes if its end is not among them. */
static size_t line_length(const struct input *input)
{
    const char *first = input->bytes + input->first;
    const char *end = memchr(first, '\n', input->count);
    return end == NULL ? input->count : (size_t)(end - first);
}

static void pass_over_rest(struct input *input)
{
    size_t length = line_length(input);
    input->within_long = length == input->count;
    drop(input, input->within_long ? length : length + 1);
}

static enum input_next give(struct input *input, struct text *line, enum input_next next)
{
    *line = (struct text){input->bytes + input->first, line_length(input)};
    drop(input, next == INPUT_LINE ? line->count + 1 : line->count);
    input->within_long = next == INPUT_LONG;
    return next;
}

enum input_next input_line(struct input *input, struct text *line)
{
    for (;;) {
        if (stopped)
            return INPUT_STOPPED;
        if (input->within_long)
            pass_over_rest(input);
        size_t length = line_length(input);
        if (length < input->count)
            return give(input, line, INPUT_LINE);
        if (length > INPUT_WIDTH)
            return give(input, line, INPUT_LONG);
        if (input->ended)
            return give(input, line, length > 0 ? INPUT_CUT : INPUT_END);
        if (!read_on(input) && errno != EINTR && errno != EAGAIN)
            return INPUT_FAILED;
    }
}
