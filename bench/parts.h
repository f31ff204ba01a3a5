/* The parts of the benchmark; each prints what it finds. */
#ifndef PARTS_H
#define PARTS_H

#include <stdint.h>

/* How often a call is made for its instructions to be counted. */
enum { COUNTED = 100 };

/* Ends the program with 1 at the first difference. */
void agreement_part(unsigned long calls, uint64_t seed);

/*
 * Makes the calls of each row under callgrind: the sides of a row one after
 * another, each in a call of the function `counted`, and what it puts back in
 * another. Prints nothing.
 */
void count_part(void);

/*
 * Prints the table: times, the best of so many rounds, and instructions, if
 * `counts` names a file with one number for each call of `counted`.
 */
void table_part(int rounds, const char *counts);

void stack_part(void);

#endif
