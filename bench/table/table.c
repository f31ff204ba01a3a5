/* The table: times and instructions of both sides, row by row. */
#include "../parts.h"

#include "measure.h"
#include "rows.h"

#include <stdio.h>

/* What a row may take at most, in times of C. */
static const double target = 1.25, target_of_many = 1.6;
enum { MANY = 31 }; /* from so many waiting on */

/* What the ratios of one measure came to. */
typedef struct {
    int above; /* rows above their target */
    double largest;
    char row[80]; /* the row that has it */
} Ratios;

static Ratios of_times, of_counts;
static bool counting;
static int rows;

/* ---- Rounds ---- */

/* One round of a row. A row's rounds lie apart, so that a slow while spoils few. */
static void time_row(const char *label, const Side sides[SIDES])
{
    measure_times(rows++, label, sides);
}

/* ---- Printing ---- */

/* Prints a cost with its ratio, and a marker before it if it is above the target. */
static void print_cost(const Cost *cost, int digits, Ratios *ratios, const char *label)
{
    double proved = cost->of[PROVED], c = cost->of[IN_C];
    double ratio = proved / c, most = now.panel.count >= MANY ? target_of_many : target;
    char marked[40];

    snprintf(marked, sizeof marked, "%s%.2f", ratio > most ? "*" : "", ratio);
    printf("%9.*f%9.*f%9s", digits, proved, digits, c, marked);
    if (ratio > most)
        ratios->above++;
    if (ratio > ratios->largest) {
        ratios->largest = ratio;
        snprintf(ratios->row, sizeof ratios->row, "%s", label);
    }
}

static void print_row(const char *label, const Side sides[SIDES])
{
    Cost cost = best_times(rows++);

    printf("%-46s", label);
    print_cost(&cost, 1, &of_times, label);
    if (counting) {
        cost = next_counts(sides);
        print_cost(&cost, 0, &of_counts, label);
    }
    printf("\n");
}

static void print_head(int rounds)
{
    char times[80];

    snprintf(times, sizeof times, "ns, best of %d rounds", rounds);
    printf("%-46s%27s", "", times);
    if (counting)
        printf("%27s", "instructions");
    printf("\n%-46s", "");
    for (int measure = 0; measure <= counting; measure++)
        printf("%9s%9s%9s", side_name[PROVED], side_name[IN_C], "ratio");
    printf("\n");
}

static void print_ratios(const char *measure, const Ratios *ratios)
{
    printf("; by %s %d above target, largest ratio %.2f (%s)", measure, ratios->above,
           ratios->largest, ratios->row);
}

void table_part(int rounds, const char *counts)
{
    for (int i = 0; i < rounds; i++) {
        rows = 0;
        each_row(time_row);
    }
    counting = counts != NULL;
    if (counting)
        open_counts(counts);
    print_head(rounds);
    rows = 0;
    each_row(print_row);
    printf("* above the target: %.2f times C, %.2f times with %d or more waiting\n", target,
           target_of_many, MANY);
    printf("%d rows", rows);
    print_ratios("time", &of_times);
    if (counting)
        print_ratios("instructions", &of_counts);
    printf("\n\n");
}
