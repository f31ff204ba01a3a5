/* Rows of a send and of a beacon. */
#include "rows.h"

#include <stdio.h>

/* The empty record, with so many barrier entries. */
static void entries(int count)
{
    empty();
    for (int source = 0; source < PANELS; source++)
        now.panel.barrier[source] = source < count ? 600 : 0;
}

static void send_entries_row(int count)
{
    char label[80];

    entries(count);
    to_send(32, 0);
    snprintf(label, sizeof label, "send, %d entries, 0 waiting", count);
    row(label, 0, 1);
}

static void beacon_row(void)
{
    entries(3);
    to_beacon(32);
    row("beacon, 3 entries, 0 waiting", 0, 1);
}

static void accepted_rows(void)
{
    send_entries_row(0);
    send_entries_row(3);
    beacon_row();
    send_entries_row(16);
    send_entries_row(63);
    chain(4);
    to_send(32, 0);
    row("send, 3 entries, 4 waiting, none ready", 0, 1);
    chain(32);
    to_send(32, 0);
    row("send, 3 entries, 32 waiting, none ready", 0, 1);
    middle_frames(32);
    to_send(32, 0);
    row("send, 32 waiting of 16 entries, none ready", 0, 1);
    chain_and_send(1);
    row("send, settle of 1", 0, 2);
    chain_and_send(32);
    row("send, settle of 32", 0, 33);
}

static void refused_rows(void)
{
    empty();
    to_send(33, 0);
    row("send refused, 9, 0 waiting", 9, 0);
    to_send(32, 0);
    now.output_length = OUTPUT_MIN - 1;
    row("send refused, 10 by output, 0 waiting", 10, 0);
    now.output_length = OUTPUT_MIN;
    now.frame_length = FRAME_MAX - 1;
    row("send refused, 10 by frame buffer, 0 waiting", 10, 0);
    now.frame_length = FRAME_MAX;
    now.panel.time = UINT64_MAX;
    row("send refused, 24, 0 waiting", 24, 0);
    empty();
    to_send(32, 0);
    now.panel.own = PANELS;
    row("send refused, 26 by own number", 26, 0);
    chain(32);
    to_send(32, 0);
    now.panel.slots[PANEL_SLOT_BYTES * 31 + 1]++;
    row("send refused, 26 by the last of 32 waiting", 26, 0);
}

void send_rows(void)
{
    accepted_rows();
    refused_rows();
}
