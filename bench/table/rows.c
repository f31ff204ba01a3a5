/* What the rows share: the answer of each side is held to that of the row. */
#include "rows.h"

#include "../reference_frames.h"

#include <stdio.h>
#include <stdlib.h>
#include <string.h>

static Visit *visit_row;

static void expect(const char *label, const char *side, uint8_t number, size_t count)
{
    if (answer.number == number && answer.count == count)
        return;
    printf("WRONG CASE %s: %s gives number %u (not %u), count %zu (not %zu)\n",
           label, side, answer.number, number, answer.count, count);
    exit(1);
}

void row(const char *label, uint8_t number, size_t count)
{
    Side sides[SIDES];

    start_case(sides);
    for (int side = 0; side < SIDES; side++) {
        sides[side].call(2);
        expect(label, side_name[side], number, count);
    }
    visit_row(label, sides);
}

void damaged(uint8_t number)
{
    size_t width = width_of(now.bytes);
    size_t shortest = entries_at(width) + 1;
    size_t length_at = now.length - 1 - (now.length == shortest ? 0 : PAYLOAD_MAX);

    switch (number) {
    case 1:
        now.length--; /* the last byte is missing */
        break;
    case 2:
        now.bytes[2]++;
        break;
    case 3:
        now.bytes[VERSION_AT + 1] = 3;
        break;
    case 4:
        now.bytes[SOURCE_AT] = PANELS;
        break;
    case 5:
        memset(now.bytes + DEADLINE_AT, 0, width);
        break;
    case 6: /* the last entry is the deadline */
        memcpy(now.bytes + length_at - width, now.bytes + DEADLINE_AT, width);
        break;
    case 7:
        now.bytes[length_at] = PAYLOAD_MAX + 1;
        break;
    default:
        now.length++; /* a byte left over */
        break;
    }
}

void each_row(Visit *visit)
{
    visit_row = visit;
    check_rows();
    reader_rows();
    fresh_rows();
    send_rows();
    receive_rows();
    receive_refusal_rows();
    clock_rows();
    set_back_rows();
    trace_rows();
}
