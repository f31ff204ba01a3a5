/* What the calls of a row cost: times are measured here, instructions read from a file. */
#ifndef MEASURE_H
#define MEASURE_H

#include "sides.h"

/* Per call, without what putting back takes. */
typedef struct {
    double of[SIDES];
} Cost;

/* Measures the sides of a row once more, and keeps the least times so far. */
void measure_times(int row, const char *label, const Side sides[SIDES]);

Cost best_times(int row);

/* Opens a file with a number for each call of `counted`, in the order of count.c. */
void open_counts(const char *name);

/* The counts of the next row. */
Cost next_counts(const Side sides[SIDES]);

#endif
