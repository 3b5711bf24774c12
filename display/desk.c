/* The desk's reference display: a board over the archive, and sheets as text. */
#include "board.h"
#include "command.h"
#include "input.h"
#include "listing.h"
#include "output.h"
#include "words.h"

#include <errno.h>
#include <signal.h>
#include <stdio.h>
#include <string.h>

#define USAGE "usage: desk board SHEET | desk pack [TEXT] | desk unpack [SHEET] | desk help\n"

static const char help[] = USAGE
    "\n"
    "desk board SHEET      plans the line of a sheet, shows it and takes commands,\n"
    "                      one a line:\n"
    "  TRAIN DELAY         the minutes that a train loses while driving, as 1 5\n"
    "  plan                plans afresh\n"
    "  quit                closes the board\n"
    "What is refused or not understood takes the plan off the board; the next\n"
    "command that is accepted brings it back. The file is not changed.\n"
    "\n"
    "desk pack [TEXT]      writes the sheet of a text, or of standard input:\n"
    "  m T                            trains and period\n"
    "  departure driving delay        a line for each train\n"
    "  passengers ..                  a line for each boarding station\n"
    "From # to the end of a line is a comment.\n"
    "\n"
    "desk unpack [SHEET]   writes the text of a sheet, or of standard input, and\n"
    "                      names the trains and the pairs of stations in comments\n"
    "\n"
    "Status: 0 if all went well; 1 if pack or unpack refuses, if something cannot\n"
    "be read or written, or if the board ends without quit; 2 on a wrong call.\n";

/* One line on standard error; the name is what the command was given, or NULL. */
static int fail(const char *command, const char *name, const char *what)
{
    char shown[201] = "";
    if (name != NULL)
        printable(shown, sizeof shown - 1, (struct text){name, strlen(name)});
    fprintf(stderr, "desk %s: %s%s%s\n", command, shown, name == NULL ? "" : ": ", what);
    return 1;
}

static int fail_to_read(const char *command, const char *name)
{
    return fail(command, name == NULL ? "standard input" : name, strerror(errno));
}

static int fail_to_write(const char *command)
{
    return fail(command, "standard output", strerror(errno));
}

/* Reads a file, or standard input without a name, up to `room` bytes. */
static bool read_file(const char *name, void *bytes, size_t room, size_t *count)
{
    FILE *file = name == NULL ? stdin : fopen(name, "rb");
    if (file == NULL)
        return false;
    *count = fread(bytes, 1, room, file);
    bool fine = !ferror(file);
    int error = errno;
    if (name != NULL)
        fclose(file);
    errno = error;
    return fine;
}

/* ---- the board ---- */

/* Whether the board goes on and, if not, why. */
enum state { BOARD_OPEN, BOARD_QUIT, BOARD_ENDED, BOARD_FAILED, BOARD_STOPPED };

static const char *const closings[] = {
    [BOARD_QUIT] = "closed by quit",
    [BOARD_ENDED] = "closed, the input ended without quit",
    [BOARD_FAILED] = "closed, the input cannot be read",
    [BOARD_STOPPED] = "closed by a signal",
};

static enum state obey(struct board *board, struct text line)
{
    struct command command = command_of(line);
    switch (command.kind) {
    case COMMAND_REPORT:
        board_report(board, command.train, command.delay);
        return BOARD_OPEN;
    case COMMAND_PLAN:
        board_plan(board);
        return BOARD_OPEN;
    case COMMAND_QUIT:
        return BOARD_QUIT;
    default:
        board_malformed(board, command.fault);
        return BOARD_OPEN;
    }
}

/* Takes one line and does what it says. */
static enum state take_line(struct board *board, struct input *input)
{
    struct text line;
    enum input_next next = input_line(input, &line);
    switch (next) {
    case INPUT_END: return BOARD_ENDED;
    case INPUT_FAILED: return BOARD_FAILED;
    case INPUT_STOPPED: return BOARD_STOPPED;
    default: break;
    }
    printable(board->news.command, COMMAND_WIDTH, without_return(line));
    if (next == INPUT_LINE)
        return obey(board, line);
    board_malformed(board, next == INPUT_LONG ? "the line is over 1024 bytes"
                                              : "the input ended within the line");
    return BOARD_OPEN;
}

static bool paint(struct screen screen, const char *title, const struct board *board)
{
    static struct page page;
    page.used = 0;
    frame(&page, title, &board->shown, &board->news);
    return screen_paint(screen, &page, false);
}

/* The last frame has no plan: nobody would take it off the screen any more. */
static bool paint_closing(struct screen screen, const char *title, enum state state)
{
    static struct page page;
    page.used = 0;
    page_add(&page, "%s\n%s; no plan is shown\n", title, closings[state]);
    return screen_paint(screen, &page, true);
}

/* Shows the board and takes commands until one ends it. */
static int keep_board(struct board *board, const char *title, struct input *input)
{
    struct screen screen = screen_of_output();
    enum state state = BOARD_OPEN;
    while (state == BOARD_OPEN) {
        if (!paint(screen, title, board))
            return fail_to_write("board");
        state = take_line(board, input);
    }
    if (!paint_closing(screen, title, state))
        return fail_to_write("board");
    return state == BOARD_QUIT ? 0 : 1;
}

static int run_board(const char *name)
{
    static struct board board;
    static struct input input;
    struct sheet *sheet = &board.sheet;
    char title[81];
    if (!read_file(name, sheet->bytes, sizeof sheet->bytes, &sheet->count))
        return fail_to_read("board", name);
    printable(title, sizeof title - 1, (struct text){name, strlen(name)});
    snprintf(board.news.command, sizeof board.news.command, "plan");
    board_plan(&board);
    input_open(&input);
    int status = keep_board(&board, title, &input);
    input_close(&input);
    return status;
}

/* ---- sheets as text ---- */

static int pack(const char *name)
{
    static char bytes[LISTING_ROOM + 1];
    struct text text = {bytes, 0};
    static struct sheet sheet;
    char fault[FAULT_ROOM];
    if (!read_file(name, bytes, sizeof bytes, &text.count))
        return fail_to_read("pack", name);
    if (text.count > LISTING_ROOM)
        return fail("pack", name, "the text is over 1048576 bytes");
    if (!sheet_of_listing(text, &sheet, fault))
        return fail("pack", name, fault);
    return output_bytes(sheet.bytes, sheet.count) ? 0 : fail_to_write("pack");
}

static int unpack(const char *name)
{
    static struct page page;
    struct sheet sheet;
    struct line line;
    struct refusal refusal;
    if (!read_file(name, sheet.bytes, sizeof sheet.bytes, &sheet.count))
        return fail_to_read("unpack", name);
    if (!sheet_read(&sheet, &line, &refusal)) {
        char words[REFUSAL_ROOM];
        refusal_words(words, &refusal);
        return fail("unpack", name, words);
    }
    listing_of(&page, &line);
    return output_bytes(page.text, page.used) ? 0 : fail_to_write("unpack");
}

int main(int count, char **words)
{
    const char *command = count > 1 ? words[1] : "";
    const char *name = count > 2 ? words[2] : NULL;
    signal(SIGPIPE, SIG_IGN);   /* an output that nobody reads is told like any other failure */
    if (count == 3 && strcmp(command, "board") == 0)
        return run_board(name);
    if ((count == 2 || count == 3) && strcmp(command, "pack") == 0)
        return pack(name);
    if ((count == 2 || count == 3) && strcmp(command, "unpack") == 0)
        return unpack(name);
    if (count == 2 && strcmp(command, "help") == 0)
        return output_bytes(help, sizeof help - 1) ? 0 : fail_to_write("help");
    fputs(USAGE, stderr);
    return 2;
}
