/* Plan and report in plain C, without proofs, to compare the archive with: two engines that differ
 * only in how they read a field of the sheet. What they take, write and answer is oblachura.h's. */
#ifndef PLAIN_H
#define PLAIN_H

#include <stddef.h>
#include <stdint.h>

typedef uint32_t plan_function(const uint8_t *sheet, size_t sheet_count,
                               uint64_t *cells, size_t cells_count,
                               uint8_t *decisions, size_t decisions_count,
                               uint32_t *delays, size_t delays_count,
                               uint64_t *answer, size_t answer_count);

typedef uint32_t report_function(uint8_t *sheet, size_t sheet_count,
                                 uint32_t train, uint32_t delay,
                                 uint64_t *cells, size_t cells_count,
                                 uint8_t *decisions, size_t decisions_count,
                                 uint32_t *delays, size_t delays_count,
                                 uint64_t *answer, size_t answer_count);

plan_function plain_bits_plan, plain_bytes_plan;
report_function plain_bits_report, plain_bytes_report;

#endif
