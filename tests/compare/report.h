/* What compare.c and lent.c know of each other. */
#ifndef REPORT_H
#define REPORT_H

#include <stdint.h>

/* Starts chance at a seed. */
void chance_from(uint64_t seed);

/* Takes a fault of memory for a difference, and so many seconds without an end. */
void watch(unsigned seconds);

/* Prints the seed and the turn, from which the same call comes again. */
void print_origin(void);

#endif
