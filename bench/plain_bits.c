/* The plain engine that reads a field bit by bit, as the archive does. */
#include "plain.h"

static uint32_t bit(const uint8_t *bytes, size_t i)
{
    return bytes[i / 8] >> (7 - i % 8) & 1;
}

static uint32_t field(const uint8_t *bytes, size_t at, size_t width)
{
    uint32_t number = 0;
    for (size_t k = 0; k < width; k++)
        number = number * 2 + bit(bytes, at + k);
    return number;
}

#define PLAN plain_bits_plan
#define REPORT plain_bits_report
#include "plain.inc"
