/* The one place that writes to standard output. */
#include "output.h"

#include <errno.h>
#include <poll.h>
#include <stdlib.h>
#include <string.h>
#include <unistd.h>

bool output_bytes(const void *bytes, size_t count)
{
    const char *rest = bytes;
    while (count > 0) {
        ssize_t written = write(STDOUT_FILENO, rest, count);
        if (written >= 0) {
            rest += written;
            count -= (size_t)written;
        } else if (errno == EAGAIN) {
            struct pollfd room = {.fd = STDOUT_FILENO, .events = POLLOUT};
            poll(&room, 1, -1);
        } else if (errno != EINTR) {
            return false;
        }
    }
    return true;
}

struct screen screen_of_output(void)
{
    const char *kind = getenv("TERM");
    bool can_clear = kind != NULL && kind[0] != '\0' && strcmp(kind, "dumb") != 0;
    bool terminal = isatty(STDOUT_FILENO);
    return (struct screen){terminal && can_clear, terminal && isatty(STDIN_FILENO)};
}

/* To the upper left corner, clear the screen, clear what was scrolled off it. */
#define CLEAR "\033[H\033[2J\033[3J"

bool screen_paint(struct screen screen, const struct page *frame, bool last)
{
    static struct page whole;
    whole.used = 0;
    page_add(&whole, "%s%.*s%s%s", screen.clears ? CLEAR : "", (int)frame->used, frame->text,
             screen.clears ? "" : "\n", screen.prompts && !last ? "> " : "");
    return output_bytes(whole.text, whole.used);
}
