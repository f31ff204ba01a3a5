/* Counts the answers, and prints how often each came. */
#include "seen.h"

#include "both.h"

#include <stdio.h>

static unsigned long seen[KINDS][256];
static unsigned long handed_seen[WAITING_MAX + 2];
static unsigned long waiting_seen[WAITING_MAX + 1];
static unsigned long taken_seen[2][2]; /* of version 2 and 1: handed at once, and waits */
static unsigned long removed_seen[PANELS]; /* the source of the last one handed has an entry */
static unsigned long floor_seen[2];  /* left, and raised */
static unsigned long lapsed_seen[2]; /* by the floor alone, and by the time */
static unsigned long time_seen[2];   /* left, and lowered */
static unsigned long visits_seen[2][PANELS + 1]; /* of messages that are not ready, and ready */

void saw_number(uint8_t number)
{
    seen[call.kind][number]++;
}

void saw_accepted(size_t handed, size_t waiting)
{
    handed_seen[handed]++;
    waiting_seen[waiting]++;
}

void saw_taken(bool version_1, bool waits)
{
    taken_seen[version_1][waits]++;
}

void saw_barrier(const uint64_t *before, const uint64_t *after)
{
    size_t removed = 0;
    for (int s = 0; s < PANELS; s++)
        removed += before[s] != 0 && after[s] == 0;
    removed_seen[removed]++;
}

void saw_floor(uint64_t before, uint64_t after)
{
    floor_seen[after > before]++;
}

void saw_lapsed(bool by_time)
{
    lapsed_seen[by_time]++;
}

void saw_set_back(uint64_t before, uint64_t after)
{
    time_seen[after < before]++;
}

void saw_visits(bool ready, size_t visited)
{
    visits_seen[ready][visited]++;
}

static void print_numbers(void)
{
    printf("number ");
    for (int kind = 0; kind <= CHECK; kind++)
        printf("%10s", kind_name[kind]);
    printf("\n");
    for (int number = 0; number < 256; number++) {
        unsigned long all = 0;
        for (int kind = 0; kind <= CHECK; kind++)
            all += seen[kind][number];
        bool listed = number <= 11 || (number >= 20 && number <= 26) || number == 32;
        if (all == 0 && !listed)
            continue;
        printf("%6d ", number);
        for (int kind = 0; kind <= CHECK; kind++)
            printf("%10lu", seen[kind][number]);
        printf("%s\n", all == 0 ? "  NEVER" : "");
    }
}

static unsigned long sum(const unsigned long *counts, int first, int last)
{
    unsigned long all = 0;
    for (int i = first; i <= last; i++)
        all += counts[i];
    return all;
}

static void print_visits(const char *what, const unsigned long *visits)
{
    printf("entries visited by traces, %s: none %lu, 1 %lu, 2 %lu, 3 to 63 %lu, 64 %lu\n", what,
           visits[0], visits[1], visits[2], sum(visits, 3, PANELS - 1), visits[PANELS]);
}

void print_seen(void)
{
    printf("%lu calls agree.\n\n", calls_made);
    print_numbers();
    printf("\nlog records of accepted calls: none %lu, 1 %lu, 2 to 7 %lu, 8 to 31 %lu, "
           "32 %lu, 33 %lu\n", handed_seen[0], handed_seen[1], sum(handed_seen, 2, 7),
           sum(handed_seen, 8, 31), handed_seen[32], handed_seen[33]);
    printf("waiting after accepted calls: none %lu, 1 to 31 %lu, 32 %lu\n", waiting_seen[0],
           sum(waiting_seen, 1, WAITING_MAX - 1), waiting_seen[WAITING_MAX]);
    printf("frames taken, of version 1: %lu handed at once, %lu wait; of version 2: %lu, %lu\n",
           taken_seen[true][false], taken_seen[true][true], taken_seen[false][false],
           taken_seen[false][true]);
    printf("barrier entries removed by receives and clock calls: none %lu, 1 %lu, 2 to 7 %lu, "
           "8 to 63 %lu\n", removed_seen[0], removed_seen[1], sum(removed_seen, 2, 7),
           sum(removed_seen, 8, PANELS - 1));
    printf("floor raised by accepted calls: %lu, and %lu times not; 21 by the floor alone: %lu, by "
           "the time: %lu\n", floor_seen[true], floor_seen[false], lapsed_seen[false],
           lapsed_seen[true]);
    printf("time lowered by set backs: %lu, and %lu times not\n", time_seen[true],
           time_seen[false]);
    print_visits("ready", visits_seen[true]);
    print_visits("not ready", visits_seen[false]);
    printf("log records read: %lu, and %lu times there was none\n", seen[LOG][0], seen[LOG][1]);
    printf("bundles read: %lu frames, %lu ends, %lu broken\n\n", seen[BUNDLE][BUNDLE_FRAME],
           seen[BUNDLE][BUNDLE_END], seen[BUNDLE][BUNDLE_BROKEN]);
}
