/* An archive that refuses on demand and leaves every buffer as it was, as refusal 10 does. Linked
 * before the real archive, with the linker's --wrap.
 *   a report of delay 9000 + N    is refused with N, its place the train
 *   a report of delay 1400 + N    is taken, and the next plan is refused with N */
#include "oblachura.h"

extern __typeof__(oblachura_plan) __real_oblachura_plan;
extern __typeof__(oblachura_report) __real_oblachura_report;

static uint32_t next_plan;

static uint32_t refuse(uint32_t number, uint32_t place, uint64_t *answer)
{
    answer[0] = number;
    answer[1] = place;
    answer[2] = 0;
    return number;
}

uint32_t __wrap_oblachura_plan(const uint8_t *sheet, size_t sheet_count,
                               uint64_t *cells, size_t cells_count,
                               uint8_t *decisions, size_t decisions_count,
                               uint32_t *delays, size_t delays_count,
                               uint64_t *answer, size_t answer_count)
{
    uint32_t number = next_plan;
    next_plan = 0;
    if (number > 0)
        return refuse(number, 0, answer);
    return __real_oblachura_plan(sheet, sheet_count, cells, cells_count, decisions,
                                 decisions_count, delays, delays_count, answer, answer_count);
}

uint32_t __wrap_oblachura_report(uint8_t *sheet, size_t sheet_count, uint32_t train,
                                 uint32_t delay, uint64_t *cells, size_t cells_count,
                                 uint8_t *decisions, size_t decisions_count,
                                 uint32_t *delays, size_t delays_count,
                                 uint64_t *answer, size_t answer_count)
{
    if (delay >= 9000)
        return refuse(delay - 9000, train, answer);
    next_plan = delay > 1400 ? delay - 1400 : 0;
    return __real_oblachura_report(sheet, sheet_count, train, delay, cells, cells_count,
                                   decisions, decisions_count, delays, delays_count,
                                   answer, answer_count);
}
