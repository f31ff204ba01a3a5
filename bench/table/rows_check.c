/* Rows of the frame check, of the readers, and of a fresh panel. */
#include "rows.h"

#include <stdio.h>

/* A check of a frame, whole or damaged, whose version is named if it is 1. */
static void check_row(const Message *message, bool version_1, uint8_t number)
{
    char label[80], what[40] = "";
    int entries = __builtin_popcountll(message->mask);

    to_check(message);
    if (version_1)
        as_version_1();
    if (number != 0)
        damaged(number);
    if (number != 0)
        snprintf(what, sizeof what, " refused, %u", number);
    else if (entries != 0)
        snprintf(what, sizeof what, ", %d entries", entries);
    snprintf(label, sizeof label, "frame check%s%s, %zu bytes", what,
             version_1 ? ", version 1" : "", now.length);
    row(label, number, 0);
}

/* The frame is damaged so that it is refused with each number. 2 and 3 are tried in version 2
   alone: they come before the versions part. */
static void refused_rows(const Message *message, bool version_1)
{
    for (uint8_t number = 1; number <= 8; number++) {
        bool apart = number != 2 && number != 3;
        bool can = number != 6 || message->mask != 0;
        if (can && (apart || !version_1))
            check_row(message, version_1, number);
    }
}

static void version_rows(bool version_1)
{
    Message shortest = plain(5, 1000, 0), between = middle(5, 1000), largest = longest(5, 1000);

    check_row(&shortest, version_1, 0);
    check_row(&between, version_1, 0);
    check_row(&largest, version_1, 0);
    refused_rows(&shortest, version_1);
    refused_rows(&largest, version_1);
}

void check_rows(void)
{
    empty();
    version_rows(false);
    version_rows(true);
}

void reader_rows(void)
{
    empty();
    to_log(1);
    row("log of 1 record", 0, 1);
    to_log(33);
    row("log of 33 records", 0, 33);
    to_bundle(usual);
    row("bundle of 8 frames", 0, 8);
}

void fresh_rows(void)
{
    to_fresh(63);
    row("fresh", 0, 0);
    to_fresh(64);
    row("fresh refused, 11", 11, 0);
}
