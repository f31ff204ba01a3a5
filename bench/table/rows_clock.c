/* Rows of a clock reading. */
#include "rows.h"

static void waiting_rows(void)
{
    empty();
    to_clock(10);
    row("clock, the same time, 0 waiting", 0, 0);
    to_clock(11);
    row("clock, a second later, 0 waiting", 0, 0);
    chain(4);
    to_clock(11);
    row("clock, 4 waiting, none ready", 0, 0);
    chain(32);
    to_clock(11);
    row("clock, 32 waiting, none ready", 0, 0);
    middle_frames(32);
    to_clock(11);
    row("clock, 32 waiting of 16 entries, none ready", 0, 0);
    long_frames(32);
    to_clock(11);
    row("clock, 32 waiting of 64 entries, none ready", 0, 0);
}

static void settle_row(const char *label, size_t count)
{
    to_clock(501);
    row(label, 0, count);
}

static void settle_rows(void)
{
    chain(1);
    settle_row("clock, settle of 1", 1);
    chain(8);
    settle_row("clock, settle of 8", 8);
    chain(32);
    settle_row("clock, settle of 32", 32);
    rising_chain(32);
    settle_row("clock, settle of 32, rising", 32);
    middle_frames(32);
    settle_row("clock, settle of 32 of 16 entries", 32);
    long_frames(32);
    settle_row("clock, settle of 32 of 64 entries", 32);
}

/* The first of them, or all. */
static void lapse_rows(void)
{
    one_of(4);
    to_clock(601);
    row("clock, 1 lapses, 3 move up", 0, 0);
    one_of(16);
    to_clock(601);
    row("clock, 1 lapses, 15 move up", 0, 0);
    one_of(32);
    to_clock(601);
    row("clock, 1 lapses, 31 move up", 0, 0);
    chain(32);
    to_clock(5000);
    row("clock, 32 lapse", 0, 0);
}

static void refused_rows(void)
{
    empty();
    to_clock(11);
    now.output_length = OUTPUT_MIN - 1;
    row("clock refused, 10, 0 waiting", 10, 0);
    now.output_length = OUTPUT_MIN;
    to_clock(9);
    row("clock refused, 25, 0 waiting", 25, 0);
    now.panel.own = PANELS;
    row("clock refused, 26 by own number", 26, 0);
    chain(32);
    to_clock(9);
    row("clock refused, 25, 32 waiting", 25, 0);
    now.panel.slots[PANEL_SLOT_BYTES * 31 + 1]++;
    row("clock refused, 26 by the last of 32 waiting", 26, 0);
}

void clock_rows(void)
{
    waiting_rows();
    settle_rows();
    lapse_rows();
    refused_rows();
}
