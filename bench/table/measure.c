/* Times by the clock; instructions as callgrind counted them. */
#include "measure.h"

#include "../parts.h"

#include <stdio.h>
#include <stdlib.h>
#include <time.h>

/* ---- Times ---- */

enum { ROWS_MAX = 200 };

/* ns per call; 0 before the first round, and where nothing is put back. */
typedef struct {
    double call;
    double put_back;
} Times;

static Times best[ROWS_MAX][SIDES];

static double clock_ns(void)
{
    struct timespec t;
    clock_gettime(CLOCK_MONOTONIC, &t);
    return (double)t.tv_sec * 1e9 + (double)t.tv_nsec;
}

static double time_calls(Loop *loop, long times)
{
    double start = clock_ns();
    loop(times);
    return (clock_ns() - start) / (double)times;
}

/* 20 calls first, then as many as take a fifth of a millisecond. */
static void time_loop(Loop *loop, double *least)
{
    if (!loop)
        return;
    long times = (long)(200000.0 / (time_calls(loop, 20) + 1.0));
    double time = time_calls(loop, times < 20 ? 20 : times);
    if (*least == 0 || time < *least)
        *least = time;
}

void measure_times(int row, const char *label, const Side sides[SIDES])
{
    if (row == ROWS_MAX) {
        printf("too many rows at %s\n", label);
        exit(1);
    }
    for (int side = 0; side < SIDES; side++) {
        time_loop(sides[side].call, &best[row][side].call);
        time_loop(sides[side].put_back, &best[row][side].put_back);
    }
}

Cost best_times(int row)
{
    Cost cost;
    for (int side = 0; side < SIDES; side++)
        cost.of[side] = best[row][side].call - best[row][side].put_back;
    return cost;
}

/* ---- Instructions ---- */

static FILE *counts;

void open_counts(const char *name)
{
    counts = fopen(name, "r");
    if (!counts) {
        perror(name);
        exit(1);
    }
}

static double next_count(Loop *loop)
{
    double count;
    if (!loop)
        return 0;
    if (fscanf(counts, "%lf", &count) != 1) {
        printf("too few counts\n");
        exit(1);
    }
    return count / COUNTED;
}

Cost next_counts(const Side sides[SIDES])
{
    Cost cost;
    for (int side = 0; side < SIDES; side++) {
        double call = next_count(sides[side].call);
        cost.of[side] = call - next_count(sides[side].put_back);
    }
    return cost;
}
