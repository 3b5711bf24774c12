/* A sheet and the numbers of its line, by the archive's read and write. */
#include "sheet.h"

uint32_t sheet_trains(const struct sheet *sheet)
{
    return sheet->count > 0 ? sheet->bytes[0] >> 1 : 0;
}

bool sheet_read(const struct sheet *sheet, struct line *line, struct refusal *refusal)
{
    uint64_t answer[OBLACHURA_READ_ANSWER];
    uint32_t number = oblachura_read(sheet->bytes, sheet->count,
                                     line->departures, OBLACHURA_TRAINS,
                                     line->driving, OBLACHURA_TRAINS,
                                     line->delays, OBLACHURA_TRAINS,
                                     line->passengers, OBLACHURA_PAIRS,
                                     answer, OBLACHURA_READ_ANSWER);
    if (number != OBLACHURA_ACCEPTED) {
        *refusal = (struct refusal){number, answer[1], sheet_trains(sheet)};
        return false;
    }
    line->trains = (uint32_t)answer[2];
    line->period = (uint32_t)answer[3];
    return true;
}

bool sheet_write(const struct line *line, struct sheet *sheet, struct refusal *refusal)
{
    /* There are no lists for over 64 trains; write refuses such a line before it looks at them. */
    size_t m = line->trains <= OBLACHURA_TRAINS ? line->trains : 0;
    uint64_t answer[OBLACHURA_ANSWER];
    uint32_t number = oblachura_write(line->trains, line->period, line->departures, m,
                                      line->driving, m, line->delays, m,
                                      line->passengers, m * (m + 1) / 2,
                                      sheet->bytes, OBLACHURA_SHEET, answer, OBLACHURA_ANSWER);
    if (number != OBLACHURA_ACCEPTED) {
        *refusal = (struct refusal){number, answer[1], line->trains};
        return false;
    }
    sheet->count = (size_t)answer[2];
    return true;
}
