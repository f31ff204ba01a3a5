/* Rows of a receive that is refused. */
#include "rows.h"

#include <stdio.h>

static void damaged_row(const Message *message, uint8_t number)
{
    char label[80];

    to_receive(message);
    damaged(number);
    snprintf(label, sizeof label, "receive refused, %u, %zu bytes", number, now.length);
    row(label, number, 0);
}

/* By the reading: the longest frame, damaged, and the shortest without a byte. */
static void by_reading_rows(void)
{
    Message largest = longest(50, 2000), shortest = plain(50, 2000, 0);

    empty();
    damaged_row(&shortest, 1);
    for (uint8_t number = 1; number <= 8; number++)
        damaged_row(&largest, number);
}

static void with_none_waiting_rows(void)
{
    Message usual_one = usual(50, 2000), own = usual(63, 2000);

    empty();
    to_receive(&usual_one);
    now.output_length = OUTPUT_MIN - 1;
    row("receive refused, 10, 0 waiting", 10, 0);
    now.output_length = OUTPUT_MIN;
    to_receive(&own);
    row("receive refused, 20, 0 waiting", 20, 0);
    to_receive(&usual_one);
    now.panel.time = 2001;
    row("receive refused, 21, 0 waiting", 21, 0);
    now.panel.time = 10;
    now.panel.floor = 2000;
    row("receive refused, 21 by the floor, 0 waiting", 21, 0);
    now.panel.floor = 0;
    Message far_ahead = usual(50, now.panel.time + PANEL_FARTHEST_AHEAD + 1);
    to_receive(&far_ahead);
    row("receive refused, 32, 0 waiting", 32, 0);
    to_receive(&usual_one);
    now.panel.marks[50] = now.panel.high = 2000;
    row("receive refused, 22 by mark, 0 waiting", 22, 0);
    now.panel.own = PANELS;
    row("receive refused, 26 by own number", 26, 0);
}

static void with_some_waiting_rows(void)
{
    Message waits = early(50, 2000), handed = usual(50, 2000), between = middle(0, 1000);
    Message last = plain(0, 1000, 0); /* the first of the chain, in the last place */

    entry(&last, 62, 500);
    chain(4);
    now.panel.marks[50] = now.panel.high = 2000;
    to_receive(&handed);
    row("receive refused, 22 by mark, 4 waiting", 22, 0);
    chain(32);
    now.panel.marks[50] = now.panel.high = 2000;
    to_receive(&handed);
    row("receive refused, 22 by mark, 32 waiting", 22, 0);
    chain(32);
    to_receive(&last);
    row("receive refused, 22 by the last of 32 waiting", 22, 0);
    to_receive(&waits);
    row("receive refused, 23, 32 waiting", 23, 0);
    now.panel.slots[PANEL_SLOT_BYTES * 31 + 1]++;
    row("receive refused, 26 by the last of 32 waiting", 26, 0);
    middle_frames(32);
    to_receive(&between);
    row("receive refused, 22, 32 waiting of 16 entries", 22, 0);
}

void receive_refusal_rows(void)
{
    by_reading_rows();
    with_none_waiting_rows();
    with_some_waiting_rows();
}
