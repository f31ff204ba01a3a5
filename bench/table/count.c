/* The calls of each row, made for callgrind to count their instructions. */
#include "../parts.h"

#include "rows.h"

/* Callgrind is told to count inside this function, and knows it by its name. */
void counted(Loop *loop);
static void (*volatile count)(Loop *) = counted;

__attribute__((noinline)) void counted(Loop *loop)
{
    loop(COUNTED);
}

static void count_row(const char *label, const Side sides[SIDES])
{
    (void)label;
    for (int side = 0; side < SIDES; side++) {
        count(sides[side].call);
        if (sides[side].put_back)
            count(sides[side].put_back);
    }
}

void count_part(void)
{
    each_row(count_row);
}
