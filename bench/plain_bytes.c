/* The plain engine that reads whole bytes: those that a field touches, three at most, into a window
 * that is then shifted. */
#include "plain.h"

static uint32_t field(const uint8_t *bytes, size_t at, size_t width)
{
    size_t last = at + width - 1;
    uint32_t window = 0;
    for (size_t k = at / 8; k <= last / 8; k++)
        window = window << 8 | bytes[k];
    return window >> (7 - last % 8) & ((1u << width) - 1);
}

#define PLAN plain_bytes_plan
#define REPORT plain_bytes_report
#include "plain.inc"
