/* Rows of a trace. */
#include "rows.h"

/* A message with an entry that is met and one of a panel and a deadline. */
static Message two_entries(uint8_t source, uint64_t deadline)
{
    Message message = plain(50, 2000, 32);

    entry(&message, 40, 590);
    entry(&message, source, deadline);
    return message;
}

static void with_none_waiting_rows(void)
{
    Message ready = two_entries(41, 590), waits = two_entries(61, 700);
    Message shortest = plain(50, 2000, 0), largest = longest(50, 2000);

    empty();
    to_trace(&shortest);
    row("trace, ready, 0 entries, 0 waiting", 0, 0);
    to_trace(&ready);
    row("trace, ready, 2 entries, 0 waiting", 0, 2);
    to_trace(&waits);
    row("trace, not ready, 2 entries, 0 waiting", 0, 2);
    long_frames(0);
    to_trace(&largest);
    row("trace, not ready, 63 of 64 entries, 0 waiting", 0, 63);
    now.panel.marks[62] = 600;
    row("trace, ready, 64 entries, 0 waiting", 0, 64);
}

static void with_some_waiting_rows(void)
{
    Message ready = two_entries(41, 590), waits = two_entries(61, 700);

    chain(4);
    to_trace(&ready);
    row("trace, ready, 2 entries, 4 waiting", 0, 2);
    chain(31);
    to_trace(&waits);
    row("trace, not ready, 2 entries, 31 waiting", 0, 2);
    chain(32);
    to_trace(&ready);
    row("trace, ready, 2 entries, 32 waiting", 0, 2);
    middle_frames(32);
    to_trace(&ready);
    row("trace, ready, 32 waiting of 16 entries", 0, 2);
}

/* Those that a receive refuses. */
static void refused_rows(void)
{
    Message ready = two_entries(41, 590), waits = two_entries(61, 700), far_ahead = ready;
    Message shortest = plain(50, 2000, 0), largest = longest(50, 2000);

    empty();
    to_trace(&shortest);
    damaged(1);
    row("trace, 1, too short by a byte", 1, 0);
    to_trace(&largest);
    damaged(8);
    row("trace, 8, longer than the longest by a byte", 8, 0);
    far_ahead.deadline = now.panel.time + PANEL_FARTHEST_AHEAD + 1;
    to_trace(&far_ahead);
    row("trace, 32, 2 entries, 0 waiting", 32, 2);
    to_trace(&ready);
    now.panel.floor = 2000;
    row("trace, 21 by the floor, 2 entries, 0 waiting", 21, 2);
    now.panel.floor = 0;
    now.panel.marks[50] = now.panel.high = 2000;
    row("trace, 22 by mark, 2 entries, 0 waiting", 22, 2);
    now.panel.own = PANELS;
    row("trace, 26 by own number, 2 entries", 26, 2);
    chain(32);
    to_trace(&waits);
    row("trace, 23, 2 entries, 32 waiting", 23, 2);
    now.panel.slots[PANEL_SLOT_BYTES * 31 + 1]++;
    row("trace, 26 by the last of 32 waiting", 26, 2);
}

void trace_rows(void)
{
    with_none_waiting_rows();
    with_some_waiting_rows();
    refused_rows();
}
