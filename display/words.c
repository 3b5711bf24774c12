/* Words and decimal numbers of a line of text. */
#include "words.h"

#include <string.h>

static bool is_blank(char byte)
{
    return byte == ' ' || byte == '\t';
}

void skip(struct text *text, size_t count)
{
    text->bytes += count;
    text->count -= count;
}

struct text without_return(struct text line)
{
    bool has_one = line.count > 0 && line.bytes[line.count - 1] == '\r';
    return (struct text){line.bytes, has_one ? line.count - 1 : line.count};
}

bool next_word(struct text *line, struct text *word)
{
    while (line->count > 0 && is_blank(line->bytes[0]))
        skip(line, 1);
    *word = (struct text){line->bytes, 0};
    while (word->count < line->count && !is_blank(line->bytes[word->count]))
        word->count++;
    skip(line, word->count);
    return word->count > 0;
}

bool is_word(struct text word, const char *expected)
{
    return word.count == strlen(expected) && memcmp(word.bytes, expected, word.count) == 0;
}

enum number_fault number_of(struct text word, uint32_t *number)
{
    uint64_t value = 0;
    enum number_fault fault = word.count > 0 ? NUMBER_FINE : NUMBER_NONE;
    for (size_t i = 0; i < word.count; i++) {
        if (word.bytes[i] < '0' || word.bytes[i] > '9')
            return NUMBER_NONE;
        if (fault == NUMBER_FINE)
            value = 10 * value + (uint64_t)(word.bytes[i] - '0');
        if (value > UINT32_MAX)
            fault = NUMBER_LARGE;
    }
    *number = (uint32_t)value;
    return fault;
}

void printable(char *shown, size_t width, struct text text)
{
    size_t count = text.count < width ? text.count : width;
    for (size_t i = 0; i < count; i++)
        shown[i] = text.bytes[i] >= ' ' && text.bytes[i] <= '~' ? text.bytes[i] : '?';
    if (text.count > width)
        memcpy(shown + width - 2, "..", 2);
    shown[count] = '\0';
}
