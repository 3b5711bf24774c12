/* The cases that document 01 prints, with its own numbers. */
#ifndef FIXED_H
#define FIXED_H

void fixed_cases(void);

#endif
