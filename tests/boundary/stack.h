/* How much stack each operation takes. */
#ifndef STACK_H
#define STACK_H

#include <stdbool.h>

/* Measures the four operations on lines of 64 trains and prints their bytes of stack; false if one
 * does not stay below OBLACHURA_STACK. */
bool stack_is_enough(void);

#endif
