/* Rows of a receive that is accepted. */
#include "rows.h"

static void ready_rows(void)
{
    Message ready = usual(50, 2000), between = middle(50, 2000), largest = longest(50, 2000);

    empty();
    to_receive(&ready);
    row("receive, ready, 0 waiting", 0, 1);
    chain(4);
    to_receive(&ready);
    row("receive, ready, 4 waiting", 0, 1);
    chain(31);
    to_receive(&ready);
    row("receive, ready, 31 waiting", 0, 1);
    middle_frames(0);
    now.panel.marks[62] = 600;
    to_receive(&between);
    row("receive, ready, 16 entries, 0 waiting", 0, 1);
    long_frames(0);
    now.panel.marks[62] = 600;
    to_receive(&largest);
    row("receive, ready, 64 entries, 0 waiting", 0, 1);
}

/*
 * Ready ones whose entries are those of the barrier; in the rows above they remove none of it. As at any
 * panel that calls lead to, a barrier entry is its panel's mark.
 */
static void shorter_rows(void)
{
    Message ready = usual(50, 2000), largest = longest(50, 2000);

    empty();
    for (int source = 40; source < 43; source++)
        now.panel.marks[source] = now.panel.barrier[source] = 590;
    to_receive(&ready);
    row("receive, ready, 3 barrier entries removed", 0, 1);
    long_frames(0);
    for (int source = 0; source < PANELS; source++)
        now.panel.marks[source] = now.panel.barrier[source] = 500;
    to_receive(&largest);
    row("receive, ready, 64 barrier entries removed", 0, 1);
}

/* Ready ones whose entries have lapsed, and that the log goes without. */
static void floor_rows(void)
{
    Message ready = usual(50, 2000), largest = longest(50, 2000);

    empty();
    now.panel.time = 591;
    for (int source = 40; source < 43; source++)
        now.panel.marks[source] = now.panel.barrier[source] = 580;
    to_receive(&ready);
    row("receive, ready, floor raised, 3 entries", 0, 1);
    for (int source = 40; source < 43; source++)
        now.panel.marks[source] = now.panel.barrier[source] = 0;
    to_receive(&largest);
    row("receive, ready, floor raised, 64 entries", 0, 1);
}

static void waits_rows(void)
{
    Message waits = early(50, 2000), between = middle(50, 2000), largest = longest(50, 2000);

    empty();
    to_receive(&waits);
    row("receive, waits, 0 waiting", 0, 0);
    chain(4);
    to_receive(&waits);
    row("receive, waits, 4 waiting", 0, 0);
    chain(31);
    to_receive(&waits);
    row("receive, waits, 31 waiting", 0, 0);
    middle_frames(0);
    to_receive(&between);
    row("receive, waits, 16 entries, 0 waiting", 0, 0);
    long_frames(0);
    to_receive(&largest);
    row("receive, waits, 64 entries, 0 waiting", 0, 0);
    middle_frames(31);
    to_receive(&between);
    row("receive, waits, 16 entries, 31 such waiting", 0, 0);
    long_frames(31);
    to_receive(&largest);
    row("receive, waits, 64 entries, 31 such waiting", 0, 0);
}

/* The same of version 1. */
static void version_1_rows(void)
{
    Message ready = usual(50, 2000), waits = early(50, 2000), largest = longest(50, 2000);

    empty();
    to_receive(&ready);
    as_version_1();
    row("receive, version 1, ready, 0 waiting", 0, 1);
    to_receive(&waits);
    as_version_1();
    row("receive, version 1, waits, 0 waiting", 0, 0);
    long_frames(0);
    to_receive(&largest);
    as_version_1();
    row("receive, version 1, waits, 64 entries", 0, 0);
    now.panel.marks[62] = 600;
    row("receive, version 1, ready, 64 entries", 0, 1);
}

static void settle_rows(void)
{
    Message awaited = plain(62, 500, 32);

    chain(1);
    to_receive(&awaited);
    row("receive, ready, settle of 1", 0, 2);
    one_of(4);
    to_receive(&awaited);
    row("receive, ready, settle of 1, 3 move up", 0, 2);
    one_of(16);
    to_receive(&awaited);
    row("receive, ready, settle of 1, 15 move up", 0, 2);
    one_of(32);
    to_receive(&awaited);
    row("receive, ready, settle of 1, 31 move up", 0, 2);
    chain(32);
    to_receive(&awaited);
    row("receive, ready, settle of 32", 0, 33);
    rising_chain(32);
    to_receive(&awaited);
    row("receive, ready, settle of 32, rising", 0, 33);
    middle_frames(32);
    to_receive(&awaited);
    row("receive, ready, settle of 32 of 16 entries", 0, 33);
}

static void read_rows(void)
{
    Message ready = usual(50, 2000), awaited = plain(62, 500, 32);

    empty();
    to_receive_and_read(&ready);
    row("receive, 1 log record read", 0, 1);
    chain(4);
    to_receive_and_read(&awaited);
    row("receive, 5 log records read", 0, 5);
    chain(32);
    to_receive_and_read(&awaited);
    row("receive, 33 log records read", 0, 33);
}

/* A frame that the record had already, with a deadline under 700. */
static Message had(uint8_t source, uint64_t deadline)
{
    return usual(source, deadline - 1400);
}

static void bundle_rows(void)
{
    empty();
    to_receive_bundle(usual);
    row("receive of a bundle of 8, 8 log records read", 0, 8);
    for (int source = 50; source < 58; source++)
        now.panel.marks[source] = now.panel.high = 700;
    to_receive_bundle(had);
    row("receive of a bundle of 8, refused, 22", 22, 0);
}

void receive_rows(void)
{
    ready_rows();
    shorter_rows();
    floor_rows();
    waits_rows();
    version_1_rows();
    settle_rows();
    read_rows();
    bundle_rows();
}
