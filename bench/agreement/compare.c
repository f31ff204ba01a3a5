/* Comparing bytes, numbers and records. */
#include "compare.h"

#include "../convert.h"
#include "random.h"

#include <inttypes.h>
#include <stdarg.h>
#include <stdio.h>
#include <stdlib.h>
#include <string.h>

const char *const kind_name[KINDS] = {
    "fresh", "send", "beacon", "receive", "clock", "set back", "trace", "check", "log", "bundle"
};

Call call;

void differ(const char *format, ...)
{
    va_list arguments;
    va_start(arguments, format);
    printf("DIFFERENCE in call %lu (%s), seed %" PRIu64 ": ", call.call, kind_name[call.kind],
           random_seed());
    vprintf(format, arguments);
    va_end(arguments);
    printf("\n");
    if (call.kind >= SEND && call.kind <= TRACE)
        printf("  given a record with own %u, time %" PRIu64 ", high %" PRIu64 ", %zu waiting, "
               "floor %" PRIu64 "\n", call.panel.own, call.panel.time, call.panel.high,
               call.panel.count, call.panel.floor);
    printf("  %s %" PRIu64 ", output of %zu bytes, %zu bytes given:", call.what, call.value,
           call.output_length, call.length);
    for (size_t i = 0; i < call.length; i++)
        printf("%s%02x", i % 4 == 0 ? " " : "", call.bytes[i]);
    printf("\n");
    exit(1);
}

void same_number(const char *what, uint64_t proved, uint64_t c)
{
    if (proved != c)
        differ("%s is %" PRIu64 ", in C %" PRIu64, what, proved, c);
}

void same_bytes(const char *what, const uint8_t *proved, const uint8_t *c, size_t length,
                size_t from)
{
    if (memcmp(proved, c, length) == 0)
        return;
    size_t i = 0;
    while (proved[i] == c[i])
        i++;
    differ("%s: byte %ld is %u, in C %u", what, (long)i - (long)from, proved[i], c[i]);
}

/* ---- Records ---- */

/* The first byte that is not the same, or `length`. */
static size_t first_other(const void *a, const void *b, size_t length)
{
    const uint8_t *one = a, *other = b;
    size_t i = 0;

    if (memcmp(a, b, length) == 0)
        return length;
    while (one[i] == other[i])
        i++;
    return i;
}

/* The part of the record that a byte stands in. */
static const char *part_at(size_t byte)
{
    static const struct {
        const char *name;
        size_t at, size;
    } parts[] = {
        {"own number", offsetof(Panel, own), sizeof(uint8_t)},
        {"time", offsetof(Panel, time), sizeof(uint64_t)},
        {"high", offsetof(Panel, high), sizeof(uint64_t)},
        {"number of waiting messages", offsetof(Panel, count), sizeof(size_t)},
        {"marks", offsetof(Panel, marks), PANELS * sizeof(uint64_t)},
        {"barrier", offsetof(Panel, barrier), PANELS * sizeof(uint64_t)},
        {"slots", offsetof(Panel, slots), PANEL_SLOTS_BYTES},
        {"floor", offsetof(Panel, floor), sizeof(uint64_t)}
    };

    for (size_t i = 0; i < sizeof parts / sizeof parts[0]; i++) {
        if (byte >= parts[i].at && byte < parts[i].at + parts[i].size)
            return parts[i].name;
    }
    return "between the fields";
}

/* Compares a part of so many bytes of the records. */
static void same_part(const Panel *panel, size_t at, const Record *record, size_t c_at,
                      size_t length)
{
    const uint8_t *proved = (const uint8_t *)panel + at, *c = (const uint8_t *)record + c_at;
    size_t other = first_other(proved, c, length);

    if (other < length)
        differ("record: byte %zu (%s) is %u, in C %u", at + other, part_at(at + other),
               proved[other], c[other]);
}

void same_record(const Panel *panel, const Record *record)
{
    static Panel expected; /* for its slots: one with the frame of each waiting message */

    same_part(panel, 0, record, 0, FRONT);
    same_part(panel, offsetof(Panel, floor), record, offsetof(Record, floor), BACK);
    for (size_t i = 0; i < record->count; i++) {
        char what[80];
        size_t used = slot_write(&expected, i, &record->waiting[i]);
        snprintf(what, sizeof what, "record: slot %zu", i);
        same_bytes(what, panel->slots + PANEL_SLOT_BYTES * i,
                   expected.slots + PANEL_SLOT_BYTES * i, used, 0);
    }
}

/* The records are these. */
static void same_records(const Panel *panel, const Panel *expected, const Record *record,
                         const Record *c_expected)
{
    size_t other = first_other(panel, expected, sizeof *panel);

    if (other < sizeof *panel)
        differ("byte %zu of the record (%s) was not to change so", other, part_at(other));
    if (first_other(record, c_expected, sizeof *record) < sizeof *record)
        differ("the C record was not to change so");
}

void same_as_given(const Panel *panel, const Record *record)
{
    same_records(panel, &call.panel, record, &call.record);
}

void same_but_time(const Panel *panel, const Record *record)
{
    static Panel expected;
    static Record c_expected;

    memcpy(&expected, &call.panel, sizeof expected);
    memcpy(&c_expected, &call.record, sizeof c_expected);
    expected.time = c_expected.time = record->time;
    same_records(panel, &expected, record, &c_expected);
}
