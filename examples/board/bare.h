/* What stands around a program on a board with no operating system (bare.c). */
#ifndef BARE_H
#define BARE_H

#include <stdint.h>

/* Starts the board again, and does not return. */
void restart(void);

/* Takes each exception, with its syndrome. A program that has none of its own gets one that says the syndrome and goes off. */
void on_exception(uint64_t esr);

#endif
