/* A generator of numbers by chance (splitmix64): the same seed gives the same numbers anywhere. */
#ifndef CHANCE_H
#define CHANCE_H

#include <stdbool.h>
#include <stdint.h>

void chance_seed(uint64_t seed);
uint64_t chance(void);
uint32_t below(uint32_t bound);                      /* 0 to bound - 1; bound over 0 */
uint32_t between(uint32_t least, uint32_t most);     /* both included */
bool one_in(uint32_t n);
uint32_t any_32(void);                               /* of any size: small, large, near a power */

#endif
