/*
 * The calls as a C program sees them: bench cases 1, 2 and 4 to 11 of document 01, the first two
 * with the deadlines of document 02, W-203, and they and case 6 in 64 bits, as W-208 has them;
 * beacons; deadlines far ahead; shorter barriers; clocks that are set back, and the floor; every
 * refusal and the order of refusals; traces, of every frame that is received and of some more; and
 * what a call leaves as it was.
 * Frames, of version 2, and log records are written in hexadecimal, by hand.
 */
#include "steps.h"

#include <inttypes.h>
#include <stdio.h>
#include <string.h>

/* ---- Messages ---- */

/* mark and version, source, deadline, mask, entries, payload length and payload */
#define FROM_1_DUE_100 "445259 0002 01 +64 +0 00"
#define FROM_1_DUE_700 "445259 0002 01 +2bc +0 00"
#define FROM_1_DUE_1100 "445259 0002 01 +44c +0 00"
#define FROM_5_DUE_200_AFTER_1 "445259 0002 05 +c8 +2 +64 00"
#define FROM_9_DUE_200_AFTER_1 "445259 0002 09 +c8 +2 +64 00"
#define FROM_2_DUE_300_AFTER_1 "445259 0002 02 +12c +2 +64 01 61"

/* entries of 100, 101 and 102 of panels 3, 7 and 9 */
#define AFTER_3_7_9 "445259 0002 14 +3e8 +288 +64 +65 +66 00"

/* The frame of a message of panel 20 with deadline 1000, and an entry of 100 of each panel of a
   mask. */
static void put_entries(char *text, size_t size, uint64_t mask)
{
    size_t end = (size_t)snprintf(text, size, "445259 0002 14 +3e8 +%" PRIx64, mask);
    for (; mask != 0; mask &= mask - 1)
        end += (size_t)snprintf(text + end, size - end, " +64");
    snprintf(text + end, size - end, " 00");
}

/* ---- Bench cases ---- */

static const Step cases_1_and_2[] = {
    {__LINE__, CLOCK, .at = 3, .value = 100, .record = {.time = 100}},
    {__LINE__, SEND, .at = 3, .bytes = "4f4b", .value = 0,
     .frame = "445259 0002 03 0000000000001c84 0000000000000000 02 4f4b",
     .log = {"03 0000000000001c84 02 4f4b"},
     .record = {.time = 100, .high = 7300, .marks = {{3, 7300}}, .barrier = {{3, 7300}}}},
    {__LINE__, SEND, .at = 3, .bytes = "", .value = 0,
     .frame = "445259 0002 03 0000000000001c85 0000000000000008 0000000000001c84 00",
     .log = {"03 0000000000001c85 00"},
     .record = {.time = 100, .high = 7301, .marks = {{3, 7301}}, .barrier = {{3, 7301}}}},
};

static const Step case_4[] = {
    {__LINE__, CLOCK, .at = 1, .value = 1000, .record = {.time = 1000}},
    {__LINE__, SEND, .at = 1, .bytes = "", .value = 100,
     .frame = FROM_1_DUE_1100,
     .log = {"01 +44c 00"},
     .record = {.time = 1000, .high = 1100, .marks = {{1, 1100}}, .barrier = {{1, 1100}}}},
    {__LINE__, CLOCK, .at = 2, .value = 500, .record = {.time = 500}},
    {__LINE__, RECEIVE, .at = 2, .bytes = FROM_1_DUE_1100,
     .log = {"01 +44c 00"},
     .record = {.time = 500, .high = 1100, .marks = {{1, 1100}}, .barrier = {{1, 1100}}}},
    {__LINE__, SEND, .at = 2, .bytes = "", .value = 50,
     .frame = "445259 0002 02 +44d +2 +44c 00",
     .log = {"02 +44d 00"},
     .record = {.time = 500, .high = 1101, .marks = {{1, 1100}, {2, 1101}},
                .barrier = {{2, 1101}}}},
};

static const Step case_5[] = {
    {__LINE__, CLOCK, .at = 2, .value = 700, .record = {.time = 700}},
    {__LINE__, RECEIVE, .at = 2, .bytes = FROM_1_DUE_700,
     .log = {"01 +2bc 00"},
     .record = {.time = 700, .high = 700, .marks = {{1, 700}}, .barrier = {{1, 700}}}},
    {__LINE__, CLOCK, .at = 4, .value = 701, .record = {.time = 701}},
    {__LINE__, RECEIVE, .at = 4, .bytes = FROM_1_DUE_700, .number = PANEL_REFUSED_LAPSED},
};

static const Step case_6[] = {
    {__LINE__, CLOCK, .at = 0, .value = LAST - 1, .record = {.time = LAST - 1}},
    {__LINE__, SEND, .at = 0, .bytes = "", .value = 1,
     .frame = "445259 0002 00 ffffffffffffffff 0000000000000000 00",
     .log = {"00 ffffffffffffffff 00"},
     .record = {.time = LAST - 1, .high = LAST, .marks = {{0, LAST}}, .barrier = {{0, LAST}}}},
    {__LINE__, SEND, .at = 0, .bytes = "", .value = 1, .number = PANEL_REFUSED_DEADLINE_TOO_HIGH},
};

/* Both orders of arrival, at panels 2 and 4. */
static const Step case_7[] = {
    {__LINE__, RECEIVE, .at = 2, .bytes = FROM_9_DUE_200_AFTER_1,
     .record = {.waiting = {FROM_9_DUE_200_AFTER_1}}},
    {__LINE__, RECEIVE, .at = 2, .bytes = FROM_5_DUE_200_AFTER_1,
     .record = {.waiting = {FROM_9_DUE_200_AFTER_1, FROM_5_DUE_200_AFTER_1}}},
    {__LINE__, RECEIVE, .at = 2, .bytes = FROM_1_DUE_100,
     .log = {"01 +64 00", "05 +c8 00", "09 +c8 00"},
     .record = {.high = 200, .marks = {{1, 100}, {5, 200}, {9, 200}},
                .barrier = {{5, 200}, {9, 200}}}},
    {__LINE__, RECEIVE, .at = 4, .bytes = FROM_5_DUE_200_AFTER_1,
     .record = {.waiting = {FROM_5_DUE_200_AFTER_1}}},
    {__LINE__, RECEIVE, .at = 4, .bytes = FROM_9_DUE_200_AFTER_1,
     .record = {.waiting = {FROM_5_DUE_200_AFTER_1, FROM_9_DUE_200_AFTER_1}}},
    {__LINE__, RECEIVE, .at = 4, .bytes = FROM_1_DUE_100,
     .log = {"01 +64 00", "05 +c8 00", "09 +c8 00"},
     .record = {.high = 200, .marks = {{1, 100}, {5, 200}, {9, 200}},
                .barrier = {{5, 200}, {9, 200}}}},
};

/* At panel 2 the clock passes both. At panel 4 it reaches the entry, and then passes it alone. At
   panel 6 it passes the entry and reaches the message. */
static const Step case_8[] = {
    {__LINE__, RECEIVE, .at = 2, .bytes = FROM_5_DUE_200_AFTER_1,
     .record = {.waiting = {FROM_5_DUE_200_AFTER_1}}},
    {__LINE__, CLOCK, .at = 2, .value = 201, .record = {.time = 201}},
    {__LINE__, RECEIVE, .at = 4, .bytes = FROM_5_DUE_200_AFTER_1,
     .record = {.waiting = {FROM_5_DUE_200_AFTER_1}}},
    {__LINE__, CLOCK, .at = 4, .value = 100,
     .record = {.time = 100, .waiting = {FROM_5_DUE_200_AFTER_1}}},
    {__LINE__, CLOCK, .at = 4, .value = 101,
     .log = {"05 +c8 00"},
     .record = {.time = 101, .high = 200, .marks = {{5, 200}}, .barrier = {{5, 200}},
                .floor = 100}},
    {__LINE__, RECEIVE, .at = 6, .bytes = FROM_5_DUE_200_AFTER_1,
     .record = {.waiting = {FROM_5_DUE_200_AFTER_1}}},
    {__LINE__, CLOCK, .at = 6, .value = 200,
     .log = {"05 +c8 00"},
     .record = {.time = 200, .high = 200, .marks = {{5, 200}}, .barrier = {{5, 200}},
                .floor = 100}},
};

static const Step case_10[] = {
    {__LINE__, SEND, .at = 1, .bytes = THIRTY_TWO, .value = 5,
     .frame = "445259 0002 01 +5 +0 20" THIRTY_TWO,
     .log = {"01 +5 20" THIRTY_TWO},
     .record = {.high = 5, .marks = {{1, 5}}, .barrier = {{1, 5}}}},
    {__LINE__, SEND, .at = 1, .bytes = THIRTY_TWO "69", .number = PANEL_REFUSED_PAYLOAD_LONG},
    {__LINE__, RECEIVE, .at = 1, .bytes = "", .number = PANEL_REFUSED_FRAME_SHORT},
};

static const Step case_11[] = {
    {__LINE__, CLOCK, .at = 0, .value = 50, .record = {.time = 50}},
    {__LINE__, CLOCK, .at = 0, .value = 50, .record = {.time = 50}},
    {__LINE__, CLOCK, .at = 0, .value = 49, .number = PANEL_REFUSED_CLOCK_BACK},
};

/* ---- A full list ---- */

/* The next step at panel 7, when its list is full. */
static Step full;

/*
 * Panel 7 takes 32 messages of panel 2, deadlines 100 to 131, which wait for one of panel 1 with
 * deadline 50. Afterwards `full` expects the record as it is.
 */
static void fill(void)
{
    static char frames[PANEL_WAITING_MAX][64];

    full = (Step){__LINE__, RECEIVE, .at = 7};
    for (unsigned i = 0; i < PANEL_WAITING_MAX; i++) {
        snprintf(frames[i], sizeof frames[i], "445259 0002 02 +%x +2 +32 00", 100 + i);
        full.bytes = frames[i];
        full.record.waiting[i] = frames[i];
        step(&full);
    }
}

/* Panel 7 receives a frame; what an accepted one is to give stands in `full`. */
static void receive_full(int line, const char *frame, PanelNumber number)
{
    full.line = line;
    full.bytes = frame;
    full.number = number;
    step(&full);
}

static void case_9(void)
{
    static char logs[PANEL_WAITING_MAX][16];
    static const Record settled = {.high = 131, .marks = {{1, 50}, {2, 131}, {4, 60}},
                                   .barrier = {{2, 131}, {4, 60}}};

    start("case 9");
    fill();
    full.log[0] = "04 +3c 00";
    full.record.high = 60;
    full.record.marks[0] = full.record.barrier[0] = (Due){4, 60};
    receive_full(__LINE__, "445259 0002 04 +3c +0 00", PANEL_ACCEPTED);
    full.log[0] = NULL;
    receive_full(__LINE__, "445259 0002 02 +c8 +2 +32 00",
                 PANEL_REFUSED_LIST_FULL);

    /* what they wait for: 33 log records, and every place is free again */
    full.log[0] = "01 +32 00";
    for (unsigned i = 0; i < PANEL_WAITING_MAX; i++) {
        snprintf(logs[i], sizeof logs[i], "02 +%x 00", 100 + i);
        full.log[1 + i] = logs[i];
    }
    full.record = settled;
    receive_full(__LINE__, "445259 0002 01 +32 +0 00", PANEL_ACCEPTED);
    memset(full.log, 0, sizeof full.log);
    full.record.waiting[0] = "445259 0002 02 +c8 +2 +37 00";
    receive_full(__LINE__, full.record.waiting[0], PANEL_ACCEPTED);
}

/* ---- Settling ---- */

#define CHAIN_1 "445259 0002 01 +64 +0 01 61"
#define CHAIN_2 "445259 0002 01 +65 +2 +64 01 62"
#define CHAIN_3 "445259 0002 01 +66 +2 +65 01 63"
#define CHAIN_4 "445259 0002 01 +67 +2 +66 01 64"
#define FROM_2_DUE_400 "445259 0002 02 +190 +0 00"
#define BEFORE_OWN "445259 0002 01 +7d0 +4 +4b0 01 61"

static const Step settling[] = {
    /* each is made ready by one that stands behind it in the list */
    {__LINE__, RECEIVE, .at = 7, .bytes = CHAIN_4, .record = {.waiting = {CHAIN_4}}},
    {__LINE__, RECEIVE, .at = 7, .bytes = CHAIN_3, .record = {.waiting = {CHAIN_4, CHAIN_3}}},
    {__LINE__, RECEIVE, .at = 7, .bytes = CHAIN_2,
     .record = {.waiting = {CHAIN_4, CHAIN_3, CHAIN_2}}},
    {__LINE__, RECEIVE, .at = 7, .bytes = CHAIN_1,
     .log = {"01 +64 01 61", "01 +65 01 62", "01 +66 01 63", "01 +67 01 64"},
     .record = {.high = 103, .marks = {{1, 103}}, .barrier = {{1, 103}}}},
    /* the lower deadline first, not the lower source or the earlier one; one is left */
    {__LINE__, RECEIVE, .at = 8, .bytes = FROM_2_DUE_300_AFTER_1,
     .record = {.waiting = {FROM_2_DUE_300_AFTER_1}}},
    {__LINE__, RECEIVE, .at = 8, .bytes = CHAIN_4,
     .record = {.waiting = {FROM_2_DUE_300_AFTER_1, CHAIN_4}}},
    {__LINE__, RECEIVE, .at = 8, .bytes = FROM_5_DUE_200_AFTER_1,
     .record = {.waiting = {FROM_2_DUE_300_AFTER_1, CHAIN_4, FROM_5_DUE_200_AFTER_1}}},
    {__LINE__, RECEIVE, .at = 8, .bytes = CHAIN_1,
     .log = {"01 +64 01 61", "05 +c8 00", "02 +12c 01 61"},
     .record = {.high = 300, .marks = {{1, 100}, {5, 200}, {2, 300}},
                .barrier = {{5, 200}, {2, 300}}, .waiting = {CHAIN_4}}},
    /* mark, barrier entry and high stay the larger ones where a lower deadline is handed later */
    {__LINE__, RECEIVE, .at = 9, .bytes = FROM_2_DUE_300_AFTER_1,
     .record = {.waiting = {FROM_2_DUE_300_AFTER_1}}},
    {__LINE__, RECEIVE, .at = 9, .bytes = FROM_2_DUE_400, .log = {"02 +190 00"},
     .record = {.high = 400, .marks = {{2, 400}}, .barrier = {{2, 400}},
                .waiting = {FROM_2_DUE_300_AFTER_1}}},
    {__LINE__, RECEIVE, .at = 9, .bytes = CHAIN_1,
     .log = {"01 +64 01 61", "02 +12c 01 61"},
     .record = {.high = 400, .marks = {{1, 100}, {2, 400}}, .barrier = {{2, 400}}}},
    /* a send settles after the own message was handed, and empties the barrier before that */
    {__LINE__, RECEIVE, .at = 2, .bytes = CHAIN_1, .log = {"01 +64 01 61"},
     .record = {.high = 100, .marks = {{1, 100}}, .barrier = {{1, 100}}}},
    {__LINE__, RECEIVE, .at = 2, .bytes = BEFORE_OWN,
     .record = {.high = 100, .marks = {{1, 100}}, .barrier = {{1, 100}}, .waiting = {BEFORE_OWN}}},
    {__LINE__, SEND, .at = 2, .bytes = "6f", .value = 1200,
     .frame = "445259 0002 02 +4b0 +2 +64 01 6f",
     .log = {"02 +4b0 01 6f", "01 +7d0 01 61"},
     .record = {.high = 2000, .marks = {{1, 2000}, {2, 1200}}, .barrier = {{1, 2000}}}},
    /* the longest lifetime, and buffers beyond the least */
    {__LINE__, SEND, .at = 10, .bytes = "6f", .value = 65535, .output_more = MORE_MAX,
     .buffer_more = MORE_MAX,
     .frame = "445259 0002 0a +ffff +0 01 6f",
     .log = {"0a +ffff 01 6f"},
     .record = {.high = 65535, .marks = {{10, 65535}}, .barrier = {{10, 65535}}}},
};

/* Marks tell what is ready and what was had; the barrier, which a send empties, does not. */
#define FROM_9_DUE_500_AFTER_1_AND_4 "445259 0002 09 +1f4 +12 +64 +32 00"

static const Step after_a_send[] = {
    {__LINE__, RECEIVE, .at = 2, .bytes = CHAIN_1, .log = {"01 +64 01 61"},
     .record = {.high = 100, .marks = {{1, 100}}, .barrier = {{1, 100}}}},
    {__LINE__, SEND, .at = 2, .bytes = "", .value = 1000,
     .frame = "445259 0002 02 +3e8 +2 +64 00",
     .log = {"02 +3e8 00"},
     .record = {.high = 1000, .marks = {{1, 100}, {2, 1000}}, .barrier = {{2, 1000}}}},
    {__LINE__, RECEIVE, .at = 2, .bytes = CHAIN_1, .number = PANEL_REFUSED_HAD_ALREADY},
    {__LINE__, RECEIVE, .at = 2, .bytes = FROM_5_DUE_200_AFTER_1, .log = {"05 +c8 00"},
     .record = {.high = 1000, .marks = {{1, 100}, {2, 1000}, {5, 200}},
                .barrier = {{2, 1000}, {5, 200}}}},
    {__LINE__, RECEIVE, .at = 2, .bytes = FROM_9_DUE_500_AFTER_1_AND_4,
     .record = {.high = 1000, .marks = {{1, 100}, {2, 1000}, {5, 200}},
                .barrier = {{2, 1000}, {5, 200}}, .waiting = {FROM_9_DUE_500_AFTER_1_AND_4}}},
    {__LINE__, CLOCK, .at = 2, .value = 51, .log = {"09 +1f4 00"},
     .record = {.time = 51, .high = 1000, .marks = {{1, 100}, {2, 1000}, {5, 200}, {9, 500}},
                .barrier = {{2, 1000}, {5, 200}, {9, 500}}, .floor = 50}},
};

/* ---- Beacons ---- */

static const Step beacons[] = {
    {__LINE__, CLOCK, .at = 3, .value = 100, .record = {.time = 100}},
    {__LINE__, BEACON, .at = 3, .bytes = "4f4b",
     .frame = "445259 0002 03 +514 +0 02 4f4b",
     .log = {"03 +514 02 4f4b"},
     .record = {.time = 100, .high = 1300, .marks = {{3, 1300}}, .barrier = {{3, 1300}}}},
    /* one that another message waits for */
    {__LINE__, RECEIVE, .at = 2, .bytes = BEFORE_OWN, .record = {.waiting = {BEFORE_OWN}}},
    {__LINE__, BEACON, .at = 2, .bytes = "6f",
     .frame = "445259 0002 02 +4b0 +0 01 6f",
     .log = {"02 +4b0 01 6f", "01 +7d0 01 61"},
     .record = {.high = 2000, .marks = {{1, 2000}, {2, 1200}}, .barrier = {{1, 2000}}}},
    /* the last deadline; one more by high, and by the time */
    {__LINE__, CLOCK, .at = 5, .value = LAST - 1200, .record = {.time = LAST - 1200}},
    {__LINE__, BEACON, .at = 5, .bytes = "",
     .frame = "445259 0002 05 +ffffffffffffffff +0 00",
     .log = {"05 +ffffffffffffffff 00"},
     .record = {.time = LAST - 1200, .high = LAST, .marks = {{5, LAST}}, .barrier = {{5, LAST}}}},
    {__LINE__, BEACON, .at = 5, .bytes = "", .number = PANEL_REFUSED_DEADLINE_TOO_HIGH},
    {__LINE__, CLOCK, .at = 6, .value = LAST - 1199, .record = {.time = LAST - 1199}},
    {__LINE__, BEACON, .at = 6, .bytes = "", .number = PANEL_REFUSED_DEADLINE_TOO_HIGH},
};

/* Case 1, and then a beacon: its deadline is above that of the note, and it carries the entry. */
static void beacon_after_a_note(void)
{
    static const Step beacon = {
        __LINE__, BEACON, .at = 3, .bytes = "",
        .frame = "445259 0002 03 +1c85 +8 +1c84 00",
        .log = {"03 +1c85 00"},
        .record = {.time = 100, .high = 7301, .marks = {{3, 7301}}, .barrier = {{3, 7301}}}};

    run_from("a beacon after case 1", NULL, cases_1_and_2, 2);
    step(&beacon);
}

/* Two calls on equal records give the same: answer, and every byte of what they were lent. */
static void same_given(const Step *one, const Step *other, const Panel *panel)
{
    static uint8_t one_output[sizeof output], one_buffer[sizeof buffer];
    static struct Lent one_lent;
    uint8_t bytes[BYTES_MAX];
    size_t length = put_bytes(bytes, one->bytes);

    lend(panel);
    PanelAnswer expected = make(one, bytes, length);
    memcpy(one_output, output, sizeof output);
    memcpy(one_buffer, buffer, sizeof buffer);
    memcpy(&one_lent, &lent, sizeof lent);
    lend(panel);
    PanelAnswer given = make(other, bytes, length);
    same_number(one->line, "number", given.number, expected.number);
    same_number(one->line, "count of log records", given.count, expected.count);
    same_number(one->line, "length of the frame", given.length, expected.length);
    same_bytes(one->line, "output", output, one_output, sizeof output, MARGIN);
    same_bytes(one->line, "frame buffer", buffer, one_buffer, sizeof buffer, MARGIN);
    same_bytes(one->line, "record", &lent, &one_lent, sizeof lent, MARGIN);
}

/* With payloads and buffers that are accepted, and with those that are not. */
static void same_as_send(int line, const Panel *panel)
{
    static const char *const payloads[] = {"", "4f4b", THIRTY_TWO, THIRTY_TWO "69"};
    Step send = {.line = line, .call = SEND, .value = PANEL_LIFETIME_BEACON};
    Step beacon = {.line = line, .call = BEACON};

    for (size_t i = 0; i < COUNT(payloads); i++) {
        send.bytes = beacon.bytes = payloads[i];
        for (int less = 0; less < 4; less++) {
            send.output_more = beacon.output_more = -(less % 2);
            send.buffer_more = beacon.buffer_more = -(less / 2);
            same_given(&send, &beacon, panel);
        }
    }
}

/* On a record a beacon gives in everything what a send with its lifetime gives. */
static void beacon_as_a_send(void)
{
    static const Step zero = {__LINE__, SEND, .bytes = "4f4b", .value = 0};
    static const Step default_lifetime = {__LINE__, SEND, .bytes = "4f4b",
                                          .value = PANEL_LIFETIME_DEFAULT};

    run_from("a beacon as a send", NULL, cases_1_and_2, 2);
    same_as_send(__LINE__, &panels[5]); /* fresh */
    same_as_send(__LINE__, &panels[3]); /* after case 1 */
    fill();
    Panel p = panels[7];
    same_as_send(__LINE__, &p); /* 32 wait for a message of panel 1 */
    p.own = 1;
    same_as_send(__LINE__, &p); /* which the beacon is */
    p.time = LAST - PANEL_LIFETIME_BEACON;
    same_as_send(__LINE__, &p); /* the last time for a beacon */
    p.time++;
    same_as_send(__LINE__, &p);
    p.count = 33;
    same_as_send(__LINE__, &p); /* broken */
    p = panel_of(5, &(Record){.time = 101, .high = 100, .barrier = {{1, 100}}});
    same_as_send(__LINE__, &p); /* which raises the floor */

    part = "a lifetime of 0";
    same_given(&zero, &default_lifetime, &panels[5]);
}

/* ---- Deadlines far ahead ---- */

/* 1,209,600 is hexadecimal 127500. */
#define FROM_1_DUE_1209600 "445259 0002 01 +127500 +0 00"
#define FROM_1_DUE_1209601 "445259 0002 01 +127501 +0 00"
#define FROM_1_DUE_1209700 "445259 0002 01 +127564 +0 00"
#define FROM_1_DUE_1209701 "445259 0002 01 +127565 +0 00"
#define FROM_1_DUE_LAST "445259 0002 01 +ffffffffffffffff +0 00"

static const Step far_ahead[] = {
    /* at time 0, which a fresh panel has */
    {__LINE__, RECEIVE, .at = 2, .bytes = FROM_1_DUE_1209601,
     .number = PANEL_REFUSED_TOO_FAR_AHEAD},
    {__LINE__, RECEIVE, .at = 2, .bytes = FROM_1_DUE_1209600, .log = {"01 +127500 00"},
     .record = {.high = 1209600, .marks = {{1, 1209600}}, .barrier = {{1, 1209600}}}},
    /* one above the sum is refused, the sum itself taken; a second later that one is taken too */
    {__LINE__, CLOCK, .at = 3, .value = 100, .record = {.time = 100}},
    {__LINE__, RECEIVE, .at = 3, .bytes = FROM_1_DUE_1209701,
     .number = PANEL_REFUSED_TOO_FAR_AHEAD},
    {__LINE__, RECEIVE, .at = 3, .bytes = FROM_1_DUE_1209700, .log = {"01 +127564 00"},
     .record = {.time = 100, .high = 1209700, .marks = {{1, 1209700}}, .barrier = {{1, 1209700}}}},
    {__LINE__, RECEIVE, .at = 3, .bytes = FROM_1_DUE_1209701,
     .number = PANEL_REFUSED_TOO_FAR_AHEAD},
    {__LINE__, CLOCK, .at = 3, .value = 101,
     .record = {.time = 101, .high = 1209700, .marks = {{1, 1209700}}, .barrier = {{1, 1209700}}}},
    {__LINE__, RECEIVE, .at = 3, .bytes = FROM_1_DUE_1209701, .log = {"01 +127565 00"},
     .record = {.time = 101, .high = 1209701, .marks = {{1, 1209701}}, .barrier = {{1, 1209701}}}},
    /* the last deadline: one above the sum, and a second later the sum */
    {__LINE__, CLOCK, .at = 4, .value = NEAR_LAST - 1, .record = {.time = NEAR_LAST - 1}},
    {__LINE__, RECEIVE, .at = 4, .bytes = FROM_1_DUE_LAST, .number = PANEL_REFUSED_TOO_FAR_AHEAD},
    {__LINE__, CLOCK, .at = 4, .value = NEAR_LAST, .record = {.time = NEAR_LAST}},
    {__LINE__, RECEIVE, .at = 4, .bytes = FROM_1_DUE_LAST, .log = {"01 +ffffffffffffffff 00"},
     .record = {.time = NEAR_LAST, .high = LAST, .marks = {{1, LAST}}, .barrier = {{1, LAST}}}},
    /* the sum would wrap round to 0: the deadline that equals the time, and the last one */
    {__LINE__, CLOCK, .at = 5, .value = NEAR_LAST + 1, .record = {.time = NEAR_LAST + 1}},
    {__LINE__, RECEIVE, .at = 5, .bytes = "445259 0002 01 +ffffffffffed8b00 +0 00",
     .log = {"01 +ffffffffffed8b00 00"},
     .record = {.time = NEAR_LAST + 1, .high = NEAR_LAST + 1, .marks = {{1, NEAR_LAST + 1}},
                .barrier = {{1, NEAR_LAST + 1}}}},
    {__LINE__, RECEIVE, .at = 5, .bytes = FROM_1_DUE_LAST, .log = {"01 +ffffffffffffffff 00"},
     .record = {.time = NEAR_LAST + 1, .high = LAST, .marks = {{1, LAST}}, .barrier = {{1, LAST}}}},
    /* the last time */
    {__LINE__, CLOCK, .at = 6, .value = LAST, .record = {.time = LAST}},
    {__LINE__, RECEIVE, .at = 6, .bytes = FROM_1_DUE_LAST, .log = {"01 +ffffffffffffffff 00"},
     .record = {.time = LAST, .high = LAST, .marks = {{1, LAST}}, .barrier = {{1, LAST}}}},
};

/* Panel 2 takes the sum, so that high forces what it sends above it: a note and a beacon. Panel 4
   refuses them at the same time, and takes them two seconds later. */
#define NOTE_ABOVE "445259 0002 02 +127565 +2 +127564 01 6f"
#define BEACON_ABOVE "445259 0002 02 +127566 +4 +127565 00"

static const Step sent_far_ahead[] = {
    {__LINE__, CLOCK, .at = 2, .value = 100, .record = {.time = 100}},
    {__LINE__, RECEIVE, .at = 2, .bytes = FROM_1_DUE_1209700, .log = {"01 +127564 00"},
     .record = {.time = 100, .high = 1209700, .marks = {{1, 1209700}}, .barrier = {{1, 1209700}}}},
    {__LINE__, SEND, .at = 2, .bytes = "6f", .value = 1, .frame = NOTE_ABOVE,
     .log = {"02 +127565 01 6f"},
     .record = {.time = 100, .high = 1209701, .marks = {{1, 1209700}, {2, 1209701}},
                .barrier = {{2, 1209701}}}},
    {__LINE__, BEACON, .at = 2, .bytes = "", .frame = BEACON_ABOVE, .log = {"02 +127566 00"},
     .record = {.time = 100, .high = 1209702, .marks = {{1, 1209700}, {2, 1209702}},
                .barrier = {{2, 1209702}}}},
    {__LINE__, CLOCK, .at = 4, .value = 100, .record = {.time = 100}},
    {__LINE__, RECEIVE, .at = 4, .bytes = BEACON_ABOVE, .number = PANEL_REFUSED_TOO_FAR_AHEAD},
    {__LINE__, RECEIVE, .at = 4, .bytes = NOTE_ABOVE, .number = PANEL_REFUSED_TOO_FAR_AHEAD},
    {__LINE__, CLOCK, .at = 4, .value = 102, .record = {.time = 102}},
    {__LINE__, RECEIVE, .at = 4, .bytes = BEACON_ABOVE,
     .record = {.time = 102, .waiting = {BEACON_ABOVE}}},
    {__LINE__, RECEIVE, .at = 4, .bytes = NOTE_ABOVE,
     .record = {.time = 102, .waiting = {BEACON_ABOVE, NOTE_ABOVE}}},
    {__LINE__, RECEIVE, .at = 4, .bytes = FROM_1_DUE_1209700,
     .log = {"01 +127564 00", "02 +127565 01 6f", "02 +127566 00"},
     .record = {.time = 102, .high = 1209702, .marks = {{1, 1209700}, {2, 1209702}},
                .barrier = {{2, 1209702}}}},
};

/* A message that is far ahead at time 100, and waits for one of panel 2 with deadline 200. */
#define FAR_AFTER_2 "445259 0002 05 +127566 +4 +c8 00"

/* Panel 3 at time 100, after a set back: FROM_1_DUE_1209701, which is far ahead, is in its log, and
   FAR_AFTER_2 waits. They stay. Copies of them are 32, and 22 when the time is near enough. */
static const Record far_ahead_taken = {
    .time = 100, .high = 1209701, .marks = {{1, 1209701}}, .barrier = {{1, 1209701}},
    .waiting = {FAR_AFTER_2}};

static const Step far_ahead_stays[] = {
    {__LINE__, RECEIVE, .at = 3, .bytes = FROM_1_DUE_1209701,
     .number = PANEL_REFUSED_TOO_FAR_AHEAD},
    {__LINE__, RECEIVE, .at = 3, .bytes = FAR_AFTER_2, .number = PANEL_REFUSED_TOO_FAR_AHEAD},
    {__LINE__, CLOCK, .at = 3, .value = 100,
     .record = {.time = 100, .high = 1209701, .marks = {{1, 1209701}}, .barrier = {{1, 1209701}},
                .waiting = {FAR_AFTER_2}}},
    {__LINE__, SEND, .at = 3, .bytes = "", .value = 0,
     .frame = "445259 0002 03 +127566 +2 +127565 00", .log = {"03 +127566 00"},
     .record = {.time = 100, .high = 1209702, .marks = {{1, 1209701}, {3, 1209702}},
                .barrier = {{3, 1209702}}, .waiting = {FAR_AFTER_2}}},
    {__LINE__, BEACON, .at = 3, .bytes = "",
     .frame = "445259 0002 03 +127567 +8 +127566 00", .log = {"03 +127567 00"},
     .record = {.time = 100, .high = 1209703, .marks = {{1, 1209701}, {3, 1209703}},
                .barrier = {{3, 1209703}}, .waiting = {FAR_AFTER_2}}},
    {__LINE__, CLOCK, .at = 3, .value = 102,
     .record = {.time = 102, .high = 1209703, .marks = {{1, 1209701}, {3, 1209703}},
                .barrier = {{3, 1209703}}, .waiting = {FAR_AFTER_2}}},
    {__LINE__, RECEIVE, .at = 3, .bytes = FROM_1_DUE_1209701, .number = PANEL_REFUSED_HAD_ALREADY},
    {__LINE__, RECEIVE, .at = 3, .bytes = FAR_AFTER_2, .number = PANEL_REFUSED_HAD_ALREADY},
};

/* What it waits for hands the one that is far ahead: the message, or a clock that passes it. */
static const Step far_ahead_handed[] = {
    {__LINE__, RECEIVE, .at = 3, .bytes = "445259 0002 02 +c8 +0 00",
     .log = {"02 +c8 00", "05 +127566 00"},
     .record = {.time = 100, .high = 1209702, .marks = {{1, 1209701}, {2, 200}, {5, 1209702}},
                .barrier = {{1, 1209701}, {5, 1209702}}}},
    {__LINE__, CLOCK, .at = 3, .value = 201, .log = {"05 +127566 00"},
     .record = {.time = 201, .high = 1209702, .marks = {{1, 1209701}, {5, 1209702}},
                .barrier = {{1, 1209701}, {5, 1209702}}, .floor = 200}},
};

static void already_far_ahead(void)
{
    RUN_FROM("far ahead already", &far_ahead_taken, far_ahead_stays);
    for (size_t i = 0; i < COUNT(far_ahead_handed); i++)
        run_from("far ahead already", &far_ahead_taken, &far_ahead_handed[i], 1);
}

/* Panel 2 at a time receives a message of panel 1 with a deadline. */
static void receive_due(int line, uint64_t time, uint64_t deadline, PanelNumber number)
{
    char frame[64], log[32];
    Step s = {line, RECEIVE, .at = 2, .bytes = frame, .number = number};
    Panel p = panel_of(2, &(Record){.time = time});

    snprintf(frame, sizeof frame, "445259 0002 01 +%" PRIx64 " +0 00", deadline);
    snprintf(log, sizeof log, "01 +%" PRIx64 " 00", deadline);
    if (number == PANEL_ACCEPTED) {
        s.log[0] = log;
        s.record = (Record){.time = time, .high = deadline, .marks = {{1, deadline}},
                            .barrier = {{1, deadline}}};
    }
    call(&s, &p);
}

/* At several times: the farthest deadline that is taken, one more, and the last of all. */
static void farthest_deadlines(void)
{
    static const uint64_t times[] = {
        0, 1, 1209599, 1209600, 4293757694, 4293757695, 4293757696, 4294967294, 4294967295,
        4294967296, HALF - 1, HALF, NEAR_LAST - 1209600, NEAR_LAST - 2, NEAR_LAST - 1, NEAR_LAST,
        NEAR_LAST + 1, LAST - 1, LAST};

    part = "the farthest deadlines";
    for (size_t i = 0; i < COUNT(times); i++) {
        uint64_t time = times[i];
        bool far = LAST - time > PANEL_FARTHEST_AHEAD;
        if (far) {
            receive_due(__LINE__, time, time + PANEL_FARTHEST_AHEAD, PANEL_ACCEPTED);
            receive_due(__LINE__, time, time + PANEL_FARTHEST_AHEAD + 1,
                        PANEL_REFUSED_TOO_FAR_AHEAD);
        }
        receive_due(__LINE__, time, LAST, far ? PANEL_REFUSED_TOO_FAR_AHEAD : PANEL_ACCEPTED);
    }
}

/* ---- Shorter barriers ---- */

/* Notes of panels 0 to 3 at time 0, each sent when those before it were in the log; and the third
   as an old panel sends it, where handing removes nothing. */
#define NOTE_0 "445259 0002 00 +64 +0 00"
#define NOTE_1 "445259 0002 01 +c8 +1 +64 00"
#define NOTE_2 "445259 0002 02 +12c +2 +c8 00"
#define NOTE_2_OLD "445259 0002 02 +12c +3 +64 +c8 00"
#define NOTE_3 "445259 0002 03 +190 +4 +12c 00"

static const Step busy_yard[] = {
    {__LINE__, SEND, .at = 0, .bytes = "", .value = 100, .frame = NOTE_0, .log = {"00 +64 00"},
     .record = {.high = 100, .marks = {{0, 100}}, .barrier = {{0, 100}}}},
    {__LINE__, RECEIVE, .at = 1, .bytes = NOTE_0, .log = {"00 +64 00"},
     .record = {.high = 100, .marks = {{0, 100}}, .barrier = {{0, 100}}}},
    {__LINE__, SEND, .at = 1, .bytes = "", .value = 200, .frame = NOTE_1, .log = {"01 +c8 00"},
     .record = {.high = 200, .marks = {{0, 100}, {1, 200}}, .barrier = {{1, 200}}}},
    {__LINE__, RECEIVE, .at = 2, .bytes = NOTE_0, .log = {"00 +64 00"},
     .record = {.high = 100, .marks = {{0, 100}}, .barrier = {{0, 100}}}},
    {__LINE__, RECEIVE, .at = 2, .bytes = NOTE_1, .log = {"01 +c8 00"},
     .record = {.high = 200, .marks = {{0, 100}, {1, 200}}, .barrier = {{1, 200}}}},
    {__LINE__, SEND, .at = 2, .bytes = "", .value = 300, .frame = NOTE_2, .log = {"02 +12c 00"},
     .record = {.high = 300, .marks = {{0, 100}, {1, 200}, {2, 300}}, .barrier = {{2, 300}}}},
    {__LINE__, RECEIVE, .at = 3, .bytes = NOTE_0, .log = {"00 +64 00"},
     .record = {.high = 100, .marks = {{0, 100}}, .barrier = {{0, 100}}}},
    {__LINE__, RECEIVE, .at = 3, .bytes = NOTE_1, .log = {"01 +c8 00"},
     .record = {.high = 200, .marks = {{0, 100}, {1, 200}}, .barrier = {{1, 200}}}},
    {__LINE__, RECEIVE, .at = 3, .bytes = NOTE_2, .log = {"02 +12c 00"},
     .record = {.high = 300, .marks = {{0, 100}, {1, 200}, {2, 300}}, .barrier = {{2, 300}}}},
    {__LINE__, SEND, .at = 3, .bytes = "", .value = 400, .frame = NOTE_3, .log = {"03 +190 00"},
     .record = {.high = 400, .marks = {{0, 100}, {1, 200}, {2, 300}, {3, 400}},
                .barrier = {{3, 400}}}},
};

/* Panel 3 receives a frame; its log records are put behind those of the calls before. */
static size_t log_received(const char *frame, uint8_t *log)
{
    static const Step receive = {__LINE__, RECEIVE, .at = 3};
    uint8_t bytes[BYTES_MAX];
    size_t length = put_bytes(bytes, frame);

    lend(&panels[3]);
    PanelAnswer answer = make(&receive, bytes, length);
    same_answer(__LINE__, RECEIVE, answer.number, PANEL_ACCEPTED);
    memcpy(log, output + MARGIN, answer.count * PANEL_LOG_RECORD);
    memcpy(&panels[3], &lent.panel, sizeof panels[3]);
    return answer.count * PANEL_LOG_RECORD;
}

/* The first three notes reach panel 3 in any order, the third as a new panel sends it or an old
   one: they are logged in the order of cause, and its own note is that of the busy yard. */
static void old_and_new(const char *note_2)
{
    static const uint8_t orders[][3] = {{0, 1, 2}, {0, 2, 1}, {1, 0, 2},
                                        {1, 2, 0}, {2, 0, 1}, {2, 1, 0}};
    static const char *const records[] = {"00 +64 00", "01 +c8 00", "02 +12c 00"};
    const char *const notes[] = {NOTE_0, NOTE_1, note_2};
    uint8_t log[3 * PANEL_OUTPUT_MIN], expected[3 * PANEL_LOG_RECORD] = {0};

    for (size_t i = 0; i < 3; i++)
        put_bytes(expected + i * PANEL_LOG_RECORD, records[i]);
    for (size_t order = 0; order < COUNT(orders); order++) {
        size_t length = 0;
        start("old and new panels");
        for (size_t i = 0; i < 3; i++)
            length += log_received(notes[orders[order][i]], log + length);
        same_number(__LINE__, "length of the log", length, sizeof expected);
        same_bytes(__LINE__, "log", log, expected, sizeof expected, 0);
        step(&busy_yard[COUNT(busy_yard) - 1]);
    }
}

/* Panel 3 with the entries that a panel of the old make has after the first two notes: that which
   the second did not remove goes into the next frame. */
static const Record of_old_make = {
    .high = 200, .marks = {{0, 100}, {1, 200}}, .barrier = {{0, 100}, {1, 200}}};

static const Step from_old_make[] = {
    {__LINE__, RECEIVE, .at = 3, .bytes = NOTE_2, .log = {"02 +12c 00"},
     .record = {.high = 300, .marks = {{0, 100}, {1, 200}, {2, 300}},
                .barrier = {{0, 100}, {2, 300}}}},
    {__LINE__, SEND, .at = 3, .bytes = "", .value = 400, .log = {"03 +190 00"},
     .frame = "445259 0002 03 +190 +5 +64 +12c 00",
     .record = {.high = 400, .marks = {{0, 100}, {1, 200}, {2, 300}, {3, 400}},
                .barrier = {{3, 400}}}},
};

/* A message with an entry of 100 of panels 0 and 4, and of 60 of panel 5. */
#define BORDERS(source, deadline) \
    "445259 0002 " source " " deadline " +31 +64 +64 +3c 00"
#define FROM_1_AT_BORDERS BORDERS("01", "+c8")

/* The barrier of panel 3: the entry of panel 0 is at that of the message, that of panel 4 above it,
   that of panel 5 below it, and panel 6 has none in the message. Marks are the same, so the message
   is ready when 60 has lapsed. */
#define OF_BORDERS {{0, 100}, {4, 101}, {5, 50}, {6, 70}}

/* The record once the message of panel 1, or its next one, was handed: with this deadline, this
   mark of panel 5, and the floor that goes with this mark. */
#define BORDERS_HANDED(now, deadline, mark_5, to) \
    {.time = now, .high = deadline, \
     .marks = {{0, 100}, {1, deadline}, {4, 101}, {5, mark_5}, {6, 70}}, \
     .barrier = {{1, deadline}, {4, 101}, {6, 70}}, .floor = to}

static const Record before_borders = {
    .time = 60, .high = 101, .marks = OF_BORDERS, .barrier = OF_BORDERS};

static const Step handed_at_once[] = {
    {__LINE__, CLOCK, .at = 3, .value = 61,
     .record = {.time = 61, .high = 101, .marks = OF_BORDERS, .barrier = OF_BORDERS}},
    {__LINE__, RECEIVE, .at = 3, .bytes = FROM_1_AT_BORDERS, .broken = true,
     .number = PANEL_REFUSED_RECORD_BROKEN},
    {__LINE__, RECEIVE, .at = 3, .bytes = FROM_1_AT_BORDERS, .output_more = -1,
     .number = PANEL_REFUSED_BUFFER_SHORT},
    {__LINE__, RECEIVE, .at = 3, .bytes = FROM_1_AT_BORDERS "00",
     .number = PANEL_REFUSED_FRAME_LEFT_OVER},
    {__LINE__, RECEIVE, .at = 3, .bytes = BORDERS("03", "+c8"),
     .number = PANEL_REFUSED_OWN_SOURCE},
    {__LINE__, RECEIVE, .at = 3, .bytes = "445259 0002 07 +3c +20 +32 00",
     .number = PANEL_REFUSED_LAPSED},
    {__LINE__, RECEIVE, .at = 3, .bytes = BORDERS("01", "+12753e"),
     .number = PANEL_REFUSED_TOO_FAR_AHEAD},
    {__LINE__, RECEIVE, .at = 3, .bytes = BORDERS("04", "+65"),
     .number = PANEL_REFUSED_HAD_ALREADY},
    {__LINE__, RECEIVE, .at = 3, .bytes = FROM_1_AT_BORDERS, .log = {"01 +c8 00"},
     .record = BORDERS_HANDED(61, 200, 50, 60)},
    /* the next of panel 1 names the one that was handed */
    {__LINE__, RECEIVE, .at = 3, .bytes = "445259 0002 01 +12c +2 +c8 00",
     .log = {"01 +12c 00"}, .record = BORDERS_HANDED(61, 300, 50, 60)},
};

/* It waits, and is handed by settling: 60 lapses, or the message of panel 5 comes in. */
static const Step waits_first = {
    __LINE__, RECEIVE, .at = 3, .bytes = FROM_1_AT_BORDERS,
    .record = {.time = 60, .high = 101, .marks = OF_BORDERS, .barrier = OF_BORDERS,
               .waiting = {FROM_1_AT_BORDERS}}};

static const Step handed_by_settling[] = {
    {__LINE__, CLOCK, .at = 3, .value = 61, .log = {"01 +c8 00"},
     .record = BORDERS_HANDED(61, 200, 50, 60)},
    {__LINE__, RECEIVE, .at = 3, .bytes = "445259 0002 05 +3c +0 00",
     .log = {"05 +3c 00", "01 +c8 00"}, .record = BORDERS_HANDED(60, 200, 60, 0)},
    /* or it is dropped */
    {__LINE__, CLOCK, .at = 3, .value = 201,
     .record = {.time = 201, .high = 101, .marks = OF_BORDERS, .barrier = OF_BORDERS}},
};

static void borders(void)
{
    RUN_FROM("handed at once", &before_borders, handed_at_once);
    for (size_t i = 0; i < COUNT(handed_by_settling); i++) {
        run_from("handed by settling", &before_borders, &waits_first, 1);
        step(&handed_by_settling[i]);
    }
}

/* Marks or barrier entries: 100 of each panel of a mask, and 1000 of panel 20. */
static void put_dues(Due *dues, uint64_t mask)
{
    for (uint8_t s = 0; s < PANEL_PANELS; s++) {
        if (s == 20)
            *dues++ = (Due){20, 1000};
        else if ((mask >> s & 1) != 0)
            *dues++ = (Due){s, 100};
    }
}

/* Panel 2 has an entry of 100 of each panel, and takes a message that names those of a mask. */
static void removed(uint64_t mask)
{
    static char frame[2 * PANEL_FRAME_MAX + PANEL_PANELS + 16];
    Step s = {__LINE__, RECEIVE, .at = 2, .bytes = frame, .log = {"14 +3e8 00"},
              .record = {.high = 1000}};
    Panel p = panel_of(2, &(Record){.high = 100});

    for (size_t i = 0; i < PANEL_PANELS; i++)
        p.marks[i] = p.barrier[i] = 100;
    put_entries(frame, sizeof frame, mask);
    put_dues(s.record.marks, UINT64_MAX);
    put_dues(s.record.barrier, ~mask);
    call(&s, &p);
}

/* One of them, all but one, and all. */
static void each_panel_removed(void)
{
    part = "entries removed of each panel";
    for (unsigned s = 0; s < PANEL_PANELS; s++) {
        removed((uint64_t)1 << s);
        removed(~((uint64_t)1 << s));
    }
    removed(UINT64_MAX);
}

static void shorter_barriers(void)
{
    RUN("the busy yard", busy_yard);
    old_and_new(NOTE_2);
    old_and_new(NOTE_2_OLD);
    RUN_FROM("entries of the old make", &of_old_make, from_old_make);
    borders();
    each_panel_removed();
}

/* ---- Setting a clock back ---- */

/* Panel 3 at a time, with a content in every field. Both waiting messages have lapsed at time 500,
   and the second is ready at any time: a set back drops and hands neither. */
#define AT_TIME(now) \
    {.time = now, .high = 600, .marks = {{1, 100}, {3, 600}}, .barrier = {{1, 100}}, \
     .waiting = {CHAIN_4, FROM_5_DUE_200_AFTER_1}, .floor = 90}

static const Record before_set_back = AT_TIME(500);

static const Step set_back[] = {
    {__LINE__, SET_BACK, .at = 3, .value = 499, .broken = true,
     .number = PANEL_REFUSED_RECORD_BROKEN},
    {__LINE__, SET_BACK, .at = 3, .value = 501, .record = AT_TIME(500)},
    {__LINE__, SET_BACK, .at = 3, .value = 500, .record = AT_TIME(500)},
    {__LINE__, SET_BACK, .at = 3, .value = 499, .record = AT_TIME(499)},
    {__LINE__, SET_BACK, .at = 3, .value = 500, .record = AT_TIME(499)},
    {__LINE__, SET_BACK, .at = 3, .value = 89, .record = AT_TIME(89)}, /* below the floor */
    {__LINE__, SET_BACK, .at = 3, .value = 0, .record = AT_TIME(0)},
    {__LINE__, SET_BACK, .at = 3, .value = LAST, .record = AT_TIME(0)},
    {__LINE__, SET_BACK, .at = 3, .value = 0, .record = AT_TIME(0)},
};

/* From each of some times to each of them. */
static void lower_times(void)
{
    static const uint64_t times[] = {0, 1, 65535, 65536, 4294967295, 4294967296, HALF - 1, HALF,
                                     LAST - 1, LAST};

    part = "the lower of two times";
    for (size_t i = 0; i < COUNT(times); i++) {
        for (size_t j = 0; j < COUNT(times); j++) {
            Step s = {__LINE__, SET_BACK, .at = 3, .value = times[j],
                      .record = AT_TIME(times[i < j ? i : j])};
            Panel p = panel_of(3, &(Record)AT_TIME(times[i]));
            paint_unused(&p);
            call(&s, &p);
        }
    }
}

/* A message of panel 4 with an entry of 140 of panel 6, and three without entries. */
#define FROM_4_DUE_150_AFTER_6 "445259 0002 04 +96 +40 +8c 00"
#define FROM_6_DUE_140 "445259 0002 06 +8c +0 00"
#define FROM_6_DUE_99 "445259 0002 06 +63 +0 00"
#define FROM_1_DUE_101 "445259 0002 01 +65 +0 00"

/* Panel 2 hands a message without the one of panel 1 that it names, and drops one; then its clock
   is set to a wrong year, and back to 60. */
static const Step deaf[] = {
    {__LINE__, CLOCK, .at = 2, .value = 50, .record = {.time = 50}},
    {__LINE__, RECEIVE, .at = 2, .bytes = FROM_5_DUE_200_AFTER_1,
     .record = {.time = 50, .waiting = {FROM_5_DUE_200_AFTER_1}}},
    {__LINE__, RECEIVE, .at = 2, .bytes = FROM_4_DUE_150_AFTER_6,
     .record = {.time = 50, .waiting = {FROM_5_DUE_200_AFTER_1, FROM_4_DUE_150_AFTER_6}}},
    {__LINE__, CLOCK, .at = 2, .value = 160, .log = {"05 +c8 00"},
     .record = {.time = 160, .high = 200, .marks = {{5, 200}}, .barrier = {{5, 200}},
                .floor = 100}},
    {__LINE__, CLOCK, .at = 2, .value = 31536000,
     .record = {.time = 31536000, .high = 200, .marks = {{5, 200}}, .barrier = {{5, 200}},
                .floor = 100}},
    {__LINE__, RECEIVE, .at = 2, .bytes = FROM_1_DUE_700, .number = PANEL_REFUSED_LAPSED},
    {__LINE__, RECEIVE, .at = 2, .bytes = FROM_4_DUE_150_AFTER_6, .number = PANEL_REFUSED_LAPSED},
    {__LINE__, CLOCK, .at = 2, .value = 60, .number = PANEL_REFUSED_CLOCK_BACK},
    {__LINE__, SET_BACK, .at = 2, .value = 60,
     .record = {.time = 60, .high = 200, .marks = {{5, 200}}, .barrier = {{5, 200}},
                .floor = 100}},
    /* what the log went without is still refused, and what is earlier, of whatever panel */
    {__LINE__, RECEIVE, .at = 2, .bytes = FROM_1_DUE_100, .number = PANEL_REFUSED_LAPSED},
    {__LINE__, RECEIVE, .at = 2, .bytes = FROM_6_DUE_99, .number = PANEL_REFUSED_LAPSED},
    /* what was dropped is taken again; an entry that has lapsed by the floor is met */
    {__LINE__, RECEIVE, .at = 2, .bytes = FROM_4_DUE_150_AFTER_6,
     .record = {.time = 60, .high = 200, .marks = {{5, 200}}, .barrier = {{5, 200}},
                .waiting = {FROM_4_DUE_150_AFTER_6}, .floor = 100}},
    {__LINE__, RECEIVE, .at = 2, .bytes = FROM_9_DUE_200_AFTER_1, .log = {"09 +c8 00"},
     .record = {.time = 60, .high = 200, .marks = {{5, 200}, {9, 200}},
                .barrier = {{5, 200}, {9, 200}}, .waiting = {FROM_4_DUE_150_AFTER_6},
                .floor = 100}},
    /* later ones stand in order */
    {__LINE__, RECEIVE, .at = 2, .bytes = FROM_1_DUE_101, .log = {"01 +65 00"},
     .record = {.time = 60, .high = 200, .marks = {{1, 101}, {5, 200}, {9, 200}},
                .barrier = {{1, 101}, {5, 200}, {9, 200}}, .waiting = {FROM_4_DUE_150_AFTER_6},
                .floor = 100}},
    {__LINE__, RECEIVE, .at = 2, .bytes = FROM_6_DUE_140,
     .log = {"06 +8c 00", "04 +96 00"},
     .record = {.time = 60, .high = 200,
                .marks = {{1, 101}, {4, 150}, {5, 200}, {6, 140}, {9, 200}},
                .barrier = {{1, 101}, {4, 150}, {5, 200}, {9, 200}}, .floor = 100}},
    /* the clock goes on as ever */
    {__LINE__, CLOCK, .at = 2, .value = 59, .number = PANEL_REFUSED_CLOCK_BACK},
    {__LINE__, CLOCK, .at = 2, .value = 61,
     .record = {.time = 61, .high = 200,
                .marks = {{1, 101}, {4, 150}, {5, 200}, {6, 140}, {9, 200}},
                .barrier = {{1, 101}, {4, 150}, {5, 200}, {9, 200}}, .floor = 100}},
};

/* What panel 2 sends in the wrong year and after it is far ahead; what waits at panel 6 stays. */
#define SENT_IN_WRONG_YEAR "445259 0002 02 +1e133e4 +0 00"
#define SENT_AFTER_IT "445259 0002 02 +1e133e5 +4 +1e133e4 00"
#define WAITS_IN_WRONG_YEAR "445259 0002 01 +1e13448 +8 +1e13416 00"

static const Step wrong_year[] = {
    {__LINE__, CLOCK, .at = 2, .value = 31536000, .record = {.time = 31536000}},
    {__LINE__, SEND, .at = 2, .bytes = "", .value = 100, .frame = SENT_IN_WRONG_YEAR,
     .log = {"02 +1e133e4 00"},
     .record = {.time = 31536000, .high = 31536100, .marks = {{2, 31536100}},
                .barrier = {{2, 31536100}}}},
    {__LINE__, SET_BACK, .at = 2, .value = 100,
     .record = {.time = 100, .high = 31536100, .marks = {{2, 31536100}},
                .barrier = {{2, 31536100}}}},
    {__LINE__, SEND, .at = 2, .bytes = "", .value = 100, .frame = SENT_AFTER_IT,
     .log = {"02 +1e133e5 00"},
     .record = {.time = 100, .high = 31536101, .marks = {{2, 31536101}},
                .barrier = {{2, 31536101}}}},
    {__LINE__, CLOCK, .at = 4, .value = 100, .record = {.time = 100}},
    {__LINE__, RECEIVE, .at = 4, .bytes = SENT_AFTER_IT, .number = PANEL_REFUSED_TOO_FAR_AHEAD},

    {__LINE__, CLOCK, .at = 6, .value = 31536000, .record = {.time = 31536000}},
    {__LINE__, RECEIVE, .at = 6, .bytes = WAITS_IN_WRONG_YEAR,
     .record = {.time = 31536000, .waiting = {WAITS_IN_WRONG_YEAR}}},
    {__LINE__, SET_BACK, .at = 6, .value = 100,
     .record = {.time = 100, .waiting = {WAITS_IN_WRONG_YEAR}}},
    {__LINE__, RECEIVE, .at = 6, .bytes = WAITS_IN_WRONG_YEAR,
     .number = PANEL_REFUSED_TOO_FAR_AHEAD},
    {__LINE__, CLOCK, .at = 6, .value = 200,
     .record = {.time = 200, .waiting = {WAITS_IN_WRONG_YEAR}}},
    /* handed in that year again, and set back: now the floor is of that year, and 21 before 32 */
    {__LINE__, CLOCK, .at = 6, .value = 31536151, .log = {"01 +1e13448 00"},
     .record = {.time = 31536151, .high = 31536200, .marks = {{1, 31536200}},
                .barrier = {{1, 31536200}}, .floor = 31536150}},
    {__LINE__, SET_BACK, .at = 6, .value = 300,
     .record = {.time = 300, .high = 31536200, .marks = {{1, 31536200}},
                .barrier = {{1, 31536200}}, .floor = 31536150}},
    {__LINE__, RECEIVE, .at = 6, .bytes = FROM_2_DUE_400, .number = PANEL_REFUSED_LAPSED},
    {__LINE__, RECEIVE, .at = 6, .bytes = SENT_AFTER_IT, .number = PANEL_REFUSED_LAPSED},
};

/* ---- The floor ---- */

/* The entries of AFTER_3_7_9 the other way round, and with the largest in the middle. */
#define AFTER_9_7_3 "445259 0002 14 +3e8 +288 +66 +65 +64 00"
#define AFTER_7_LAST "445259 0002 14 +3e8 +288 +65 +66 +64 00"

/* Entries and deadlines on both sides of 2 to the power 32, and of half of the last deadline, and
   the last ones. */
#define AFTER_4294967296 "445259 0002 05 +100000002 +2 +100000000 00"
#define AFTER_HALF "445259 0002 05 +8000000000000002 +2 +8000000000000000 00"
#define DUE_LAST_AFTER_LAST "445259 0002 05 +ffffffffffffffff +2 +fffffffffffffffe 00"

/* They wait for 100 of panel 6, and two of them for 200 of panel 1 too: the first meets that, if it
   is handed before. */
#define FROM_1_DUE_300_AFTER_6 "445259 0002 01 +12c +40 +64 00"
#define DUE_250_AFTER_1_6 "445259 0002 05 +fa +42 +c8 +64 00"
#define DUE_350_AFTER_1_6 "445259 0002 05 +15e +42 +c8 +64 00"

#define DUE_104_AFTER_103 "445259 0002 01 +68 +2 +67 00"

/* A call at panel 2 on a record, how many messages it is to hand and to leave waiting, and which
   floor it is to leave. */
static const struct {
    int line;
    Call call;
    const char *bytes;
    uint64_t value;
    Record given;
    size_t count;
    size_t waiting;
    uint64_t floor;
} floors[] = {
    /* one entry that has lapsed: the mark below it, at it and above it */
    {__LINE__, RECEIVE, FROM_5_DUE_200_AFTER_1, 0, {.time = 101}, 1, 0, 100},
    {__LINE__, RECEIVE, FROM_5_DUE_200_AFTER_1, 0, {.time = 101, .high = 99, .marks = {{1, 99}}},
     1, 0, 100},
    {__LINE__, RECEIVE, FROM_5_DUE_200_AFTER_1, 0, {.time = 101, .high = 100, .marks = {{1, 100}}},
     1, 0, 0},
    {__LINE__, RECEIVE, FROM_5_DUE_200_AFTER_1, 0, {.time = 101, .high = 101, .marks = {{1, 101}}},
     1, 0, 0},
    /* whatever the marks of other panels, the barrier and high are */
    {__LINE__, RECEIVE, FROM_5_DUE_200_AFTER_1, 0,
     {.time = 101, .high = 199, .marks = {{0, 199}, {2, 199}, {5, 199}}, .barrier = {{1, 100}}},
     1, 0, 100},
    /* a floor below it, at it and above it */
    {__LINE__, RECEIVE, FROM_5_DUE_200_AFTER_1, 0, {.time = 101, .floor = 99}, 1, 0, 100},
    {__LINE__, RECEIVE, FROM_5_DUE_200_AFTER_1, 0, {.time = 101, .floor = 100}, 1, 0, 100},
    {__LINE__, RECEIVE, FROM_5_DUE_200_AFTER_1, 0, {.time = 101, .floor = 199}, 1, 0, 199},
    /* an entry that has lapsed by the floor alone is met; one above it, at the time, is not */
    {__LINE__, RECEIVE, FROM_5_DUE_200_AFTER_1, 0, {.time = 0, .floor = 100}, 1, 0, 100},
    {__LINE__, RECEIVE, FROM_5_DUE_200_AFTER_1, 0, {.time = 0, .floor = 199}, 1, 0, 199},
    {__LINE__, RECEIVE, FROM_5_DUE_200_AFTER_1, 0, {.time = 0, .floor = 99}, 0, 1, 99},
    {__LINE__, RECEIVE, FROM_5_DUE_200_AFTER_1, 0, {.time = 100, .floor = 99}, 0, 1, 99},
    /* the largest of several that the log goes without, wherever it stands */
    {__LINE__, RECEIVE, AFTER_3_7_9, 0, {.time = 103}, 1, 0, 102},
    {__LINE__, RECEIVE, AFTER_9_7_3, 0, {.time = 103}, 1, 0, 102},
    {__LINE__, RECEIVE, AFTER_7_LAST, 0, {.time = 103}, 1, 0, 102},
    {__LINE__, RECEIVE, AFTER_3_7_9, 0, {.time = 103, .high = 102, .marks = {{9, 102}}}, 1, 0, 101},
    {__LINE__, RECEIVE, AFTER_9_7_3, 0, {.time = 103, .high = 102, .marks = {{3, 102}}}, 1, 0, 101},
    {__LINE__, RECEIVE, AFTER_7_LAST, 0, {.time = 103, .high = 102, .marks = {{7, 102}}},
     1, 0, 101},
    {__LINE__, RECEIVE, AFTER_3_7_9, 0, {.time = 103, .high = 102, .marks = {{7, 101}, {9, 102}}},
     1, 0, 100},
    {__LINE__, RECEIVE, AFTER_3_7_9, 0,
     {.time = 103, .high = 102, .marks = {{3, 100}, {7, 101}, {9, 102}}}, 1, 0, 0},
    /* entries that have not lapsed, and are met by the mark */
    {__LINE__, RECEIVE, AFTER_3_7_9, 0, {.time = 101, .high = 102, .marks = {{7, 101}, {9, 102}}},
     1, 0, 100},
    /* one that waits raises nothing yet */
    {__LINE__, RECEIVE, AFTER_3_7_9, 0, {.time = 101}, 0, 1, 0},
    {__LINE__, RECEIVE, AFTER_9_7_3, 0, {.time = 101, .floor = 9}, 0, 1, 9},
    /* the mark before this handing: an entry of its own panel */
    {__LINE__, RECEIVE, CHAIN_4, 0, {.time = 103}, 1, 0, 102},
    {__LINE__, RECEIVE, CHAIN_4, 0, {.time = 103, .high = 102, .marks = {{1, 102}}}, 1, 0, 0},
    /* on both sides of 2 to the power 32, and of half of the last deadline, and the last ones */
    {__LINE__, RECEIVE, AFTER_4294967296, 0, {.time = 4294967297, .floor = 4294967295},
     1, 0, 4294967296},
    {__LINE__, RECEIVE, AFTER_4294967296, 0,
     {.time = 4294967297, .high = 4294967296, .marks = {{1, 4294967296}}, .floor = 4294967295},
     1, 0, 4294967295},
    {__LINE__, RECEIVE, AFTER_4294967296, 0,
     {.time = 4294967297, .high = 4294967295, .marks = {{1, 4294967295}}}, 1, 0, 4294967296},
    {__LINE__, RECEIVE, AFTER_HALF, 0, {.time = HALF + 1, .floor = HALF - 1}, 1, 0, HALF},
    {__LINE__, RECEIVE, AFTER_HALF, 0,
     {.time = HALF + 1, .high = HALF, .marks = {{1, HALF}}, .floor = HALF - 1}, 1, 0, HALF - 1},
    {__LINE__, RECEIVE, AFTER_HALF, 0,
     {.time = HALF + 1, .high = HALF - 1, .marks = {{1, HALF - 1}}}, 1, 0, HALF},
    {__LINE__, RECEIVE, DUE_LAST_AFTER_LAST, 0, {.time = LAST}, 1, 0, LAST - 1},
    {__LINE__, RECEIVE, FROM_1_DUE_LAST, 0, {.time = LAST, .floor = LAST - 1}, 1, 0, LAST - 1},
    /* a message that waits raises it when it is handed: by a clock call, by what it waits for */
    {__LINE__, CLOCK, NULL, 100, {.waiting = {FROM_5_DUE_200_AFTER_1}}, 0, 1, 0},
    {__LINE__, CLOCK, NULL, 101, {.waiting = {FROM_5_DUE_200_AFTER_1}}, 1, 0, 100},
    {__LINE__, CLOCK, NULL, 201, {.waiting = {FROM_5_DUE_200_AFTER_1}}, 0, 0, 0},
    {__LINE__, RECEIVE, FROM_1_DUE_100, 0, {.waiting = {FROM_5_DUE_200_AFTER_1}}, 2, 0, 0},
    {__LINE__, RECEIVE, FROM_6_DUE_140, 0, {.time = 101, .waiting = {FROM_5_DUE_200_AFTER_1}},
     2, 0, 100},
    /* the mark before this handing, as those handed by the same call left it */
    {__LINE__, CLOCK, NULL, 201, {.waiting = {DUE_350_AFTER_1_6, FROM_1_DUE_300_AFTER_6}},
     2, 0, 100},
    {__LINE__, CLOCK, NULL, 201, {.waiting = {DUE_250_AFTER_1_6, FROM_1_DUE_300_AFTER_6}},
     2, 0, 200},
    /* a send whose entries are in the log; entries above the mark, as no list leaves them, that
       have lapsed or not; the own one, by the mark before this handing; the largest */
    {__LINE__, SEND, "", 9, {.time = 101, .high = 100, .marks = {{1, 100}}, .barrier = {{1, 100}}},
     1, 0, 0},
    {__LINE__, SEND, "", 9, {.time = 101, .high = 100, .marks = {{1, 99}}, .barrier = {{1, 100}}},
     1, 0, 100},
    {__LINE__, SEND, "", 9, {.time = 100, .high = 100, .marks = {{1, 99}}, .barrier = {{1, 100}}},
     1, 0, 0},
    {__LINE__, SEND, "", 9, {.time = 100, .high = 100, .barrier = {{1, 100}}, .floor = 100},
     1, 0, 100},
    {__LINE__, SEND, "", 9, {.time = 101, .high = 100, .barrier = {{2, 100}}}, 1, 0, 100},
    {__LINE__, SEND, "", 9,
     {.time = 102, .high = 103, .marks = {{4, 101}},
      .barrier = {{1, 99}, {3, 100}, {4, 101}, {5, 102}, {6, 103}}}, 1, 0, 100},
    {__LINE__, SEND, "", 9, {.time = 102, .high = 101, .barrier = {{63, 101}}, .floor = 50},
     1, 0, 101},
    {__LINE__, BEACON, "", 0, {.time = 101, .high = 100, .marks = {{1, 99}}, .barrier = {{1, 100}}},
     1, 0, 100},
    /* and what a send settles */
    {__LINE__, SEND, "", 9, {.time = 101, .waiting = {FROM_5_DUE_200_AFTER_1}}, 2, 0, 100},
    /* what a clock call drops by the floor alone, before it settles: at it, and not above it */
    {__LINE__, CLOCK, NULL, 0, {.waiting = {CHAIN_4, DUE_104_AFTER_103}, .floor = 101}, 0, 2, 101},
    {__LINE__, CLOCK, NULL, 0, {.waiting = {CHAIN_4, DUE_104_AFTER_103}, .floor = 102}, 2, 0, 102},
    {__LINE__, CLOCK, NULL, 0, {.waiting = {CHAIN_4, DUE_104_AFTER_103}, .floor = 103}, 1, 0, 103},
    {__LINE__, CLOCK, NULL, 0, {.waiting = {CHAIN_4, DUE_104_AFTER_103}, .floor = 104}, 0, 0, 104},
    {__LINE__, CLOCK, NULL, 0, {.waiting = {FROM_1_DUE_LAST, DUE_LAST_AFTER_LAST}, .floor = LAST},
     0, 0, LAST},
    {__LINE__, CLOCK, NULL, LAST,
     {.waiting = {FROM_1_DUE_LAST, DUE_LAST_AFTER_LAST}, .floor = LAST - 1}, 2, 0, LAST - 1},
    /* a receive drops nothing: as it settles it hands what has lapsed by the floor */
    {__LINE__, RECEIVE, DUE_104_AFTER_103, 0, {.waiting = {CHAIN_4}, .floor = 103}, 2, 0, 103},
    /* a send is not held to the floor, and a set back leaves it */
    {__LINE__, SEND, "", 9, {.time = 100, .floor = LAST}, 1, 0, LAST},
    {__LINE__, SET_BACK, NULL, 9, {.time = 100, .floor = LAST}, 0, 0, LAST},
};

static void each_floor(void)
{
    uint8_t bytes[BYTES_MAX];

    part = "floors";
    for (size_t i = 0; i < COUNT(floors); i++) {
        Step s = {floors[i].line, floors[i].call, .value = floors[i].value};
        size_t length = floors[i].bytes != NULL ? put_bytes(bytes, floors[i].bytes) : 0;
        Panel p = panel_of(2, &floors[i].given);
        paint_unused(&p);
        lend(&p);
        PanelAnswer answer = make(&s, bytes, length);
        same_answer(s.line, s.call, answer.number, PANEL_ACCEPTED);
        same_number(s.line, "count of log records", answer.count, floors[i].count);
        same_number(s.line, "number of waiting messages", lent.panel.count, floors[i].waiting);
        same_number(s.line, "floor", lent.panel.floor, floors[i].floor);
        check_margins(s.line);
    }
}

/* Panel 2 at time 101 has had 100 of each panel but those of a mask, of which it has had 99. It
   takes a message that names 100 of each; and panel 20, with the same record, sends it. */
static void gone_without(uint64_t mask)
{
    static char frame[2 * PANEL_FRAME_MAX + PANEL_PANELS + 16];
    Step s = {__LINE__, RECEIVE, .at = 2, .bytes = frame, .log = {"14 +3e8 00"},
              .record = {.time = 101, .high = 1000, .barrier = {{20, 1000}},
                         .floor = mask != 0 ? 100 : 0}};
    Panel p = panel_of(2, &(Record){.time = 101, .high = 100});

    for (uint8_t i = 0; i < PANEL_PANELS; i++) {
        p.marks[i] = (mask >> i & 1) != 0 ? 99 : 100;
        p.barrier[i] = 100;
        s.record.marks[i] = (Due){i, i == 20 ? 1000 : p.marks[i]};
    }
    put_entries(frame, sizeof frame, UINT64_MAX);
    call(&s, &p);
    p.own = s.at = 20;
    s.call = SEND;
    s.bytes = "";
    s.value = 899;
    s.frame = frame;
    call(&s, &p);
}

/* None, one of them, all but one, and all. */
static void each_panel_gone_without(void)
{
    part = "entries of each panel that the log goes without";
    gone_without(0);
    for (unsigned s = 0; s < PANEL_PANELS; s++) {
        gone_without((uint64_t)1 << s);
        gone_without(~((uint64_t)1 << s));
    }
    gone_without(UINT64_MAX);
}

/* Panel 2 with a floor receives a message of panel 1: 21 up to it, one above it is taken. */
static void receive_above(int line, uint64_t time, uint64_t floor, uint64_t deadline)
{
    char frame[64], log[32];
    Step s = {line, RECEIVE, .at = 2, .bytes = frame, .number = PANEL_REFUSED_LAPSED};
    Panel p = panel_of(2, &(Record){.time = time, .floor = floor});

    snprintf(frame, sizeof frame, "445259 0002 01 +%" PRIx64 " +0 00", deadline);
    snprintf(log, sizeof log, "01 +%" PRIx64 " 00", deadline);
    if (deadline > floor) {
        s.number = PANEL_ACCEPTED;
        s.log[0] = log;
        s.record = (Record){.time = time, .high = deadline, .marks = {{1, deadline}},
                            .barrier = {{1, deadline}}, .floor = floor};
    }
    call(&s, &p);
}

/* At the floor, below it and above it, with the time at the floor or as far behind it as one above
   it is taken. */
static void up_to_the_floor(void)
{
    static const uint64_t list[] = {1, 2, 100, 1209599, 4294967294, 4294967295, 4294967296,
                                    HALF - 1, HALF, LAST - 2, LAST - 1};

    part = "deadlines about the floor";
    for (size_t i = 0; i < COUNT(list); i++) {
        uint64_t floor = list[i], far = PANEL_FARTHEST_AHEAD - 1;
        uint64_t behind = floor > far ? floor - far : 0;
        receive_above(__LINE__, floor, floor, floor);
        receive_above(__LINE__, floor, floor, floor + 1);
        receive_above(__LINE__, behind, floor, 1);
        receive_above(__LINE__, behind, floor, floor - 1 > 0 ? floor - 1 : 1);
        receive_above(__LINE__, behind, floor, floor);
        receive_above(__LINE__, behind, floor, floor + 1);
    }
    receive_above(__LINE__, 0, LAST, 1);
    receive_above(__LINE__, 0, LAST, LAST);
    receive_above(__LINE__, LAST, LAST, LAST);
}

/* Panel 3 has a message of panel 1 in its log that is far ahead, and one of its own: 20, 21, 32 and
   22 in this order, as the floor reaches the message or not. */
static const Step floor_order[] = {
    {__LINE__, RECEIVE, .at = 3, .bytes = FROM_1_DUE_1209701, .broken = true, .output_more = -1,
     .number = PANEL_REFUSED_RECORD_BROKEN},
    {__LINE__, RECEIVE, .at = 3, .bytes = FROM_1_DUE_1209701, .output_more = -1,
     .number = PANEL_REFUSED_BUFFER_SHORT},
    {__LINE__, RECEIVE, .at = 3, .bytes = FROM_1_DUE_1209701 "00",
     .number = PANEL_REFUSED_FRAME_LEFT_OVER},
    {__LINE__, RECEIVE, .at = 3, .bytes = "445259 0002 03 +127565 +0 00",
     .number = PANEL_REFUSED_OWN_SOURCE},
    {__LINE__, RECEIVE, .at = 3, .bytes = FROM_1_DUE_1209701, .number = PANEL_REFUSED_LAPSED},
    {__LINE__, RECEIVE, .at = 3, .bytes = FROM_1_DUE_1209700, .number = PANEL_REFUSED_LAPSED},
    {__LINE__, RECEIVE, .at = 3, .bytes = FAR_AFTER_2, .number = PANEL_REFUSED_TOO_FAR_AHEAD},
    /* refused, and dropped by nothing */
    {__LINE__, CLOCK, .at = 3, .value = 99, .number = PANEL_REFUSED_CLOCK_BACK},
};

/* With a full list: 21 up to the floor, 23 for an entry above it, and one at it is met. */
static void full_floor(void)
{
    start("a full list and the floor");
    fill();
    panels[7].floor = full.record.floor = 40;
    receive_full(__LINE__, "445259 0002 04 +28 +40 +27 00",
                 PANEL_REFUSED_LAPSED);
    receive_full(__LINE__, "445259 0002 04 +65 +40 +29 00",
                 PANEL_REFUSED_LIST_FULL);
    full.log[0] = "04 +65 00";
    full.record.high = 101;
    full.record.marks[0] = full.record.barrier[0] = (Due){4, 101};
    receive_full(__LINE__, "445259 0002 04 +65 +40 +28 00", PANEL_ACCEPTED);
}

static void setting_back(void)
{
    static const Record far_and_floor = {
        .time = 100, .high = 1209701, .marks = {{1, 1209701}, {3, 1209701}},
        .barrier = {{1, 1209701}}, .waiting = {FAR_AFTER_2}, .floor = 1209701};

    RUN_FROM("set back", &before_set_back, set_back);
    lower_times();
    RUN("a deaf panel", deaf);
    RUN("after a wrong year", wrong_year);
    each_floor();
    each_panel_gone_without();
    up_to_the_floor();
    RUN_FROM("order of receive, with a floor", &far_and_floor, floor_order);
    full_floor();
}

/* ---- Refusals ---- */

/* The orders: in each row what the rows behind it are refused for applies too, as far as it can. */
static const Step send_order[] = {
    {__LINE__, CLOCK, .at = 6, .value = LAST, .record = {.time = LAST}},
    {__LINE__, SEND, .at = 6, .bytes = THIRTY_TWO "69", .value = 1, .broken = true,
     .output_more = -1, .buffer_more = -1, .number = PANEL_REFUSED_RECORD_BROKEN},
    {__LINE__, SEND, .at = 6, .bytes = THIRTY_TWO "69", .value = 1, .output_more = -1,
     .buffer_more = -1, .number = PANEL_REFUSED_BUFFER_SHORT},
    {__LINE__, SEND, .at = 6, .bytes = THIRTY_TWO "69", .value = 1, .buffer_more = -1,
     .number = PANEL_REFUSED_BUFFER_SHORT},
    {__LINE__, SEND, .at = 6, .bytes = THIRTY_TWO "69", .value = 1,
     .number = PANEL_REFUSED_PAYLOAD_LONG},
    {__LINE__, SEND, .at = 6, .bytes = THIRTY_TWO, .value = 1,
     .number = PANEL_REFUSED_DEADLINE_TOO_HIGH},
    /* buffers of no byte; one that is short */
    {__LINE__, SEND, .at = 5, .bytes = "", .output_more = -PANEL_OUTPUT_MIN,
     .buffer_more = -PANEL_FRAME_MAX, .number = PANEL_REFUSED_BUFFER_SHORT},
    {__LINE__, SEND, .at = 5, .bytes = "", .output_more = -1,
     .number = PANEL_REFUSED_BUFFER_SHORT},
};

/* That of a beacon is that of a send. */
static void beacon_order(void)
{
    start("order of beacon");
    for (size_t i = 0; i < COUNT(send_order); i++) {
        Step s = send_order[i];
        if (s.call == SEND)
            s.call = BEACON;
        step(&s);
    }
}

static const Step clock_order[] = {
    {__LINE__, CLOCK, .at = 6, .value = 50, .record = {.time = 50}},
    {__LINE__, CLOCK, .at = 6, .value = 49, .broken = true, .output_more = -1,
     .number = PANEL_REFUSED_RECORD_BROKEN},
    {__LINE__, CLOCK, .at = 6, .value = 49, .output_more = -1,
     .number = PANEL_REFUSED_BUFFER_SHORT},
    {__LINE__, CLOCK, .at = 6, .value = 49, .number = PANEL_REFUSED_CLOCK_BACK},
};

/* Panel 3 has sent, so that 20, 21 and 22 apply to a frame of source 3 with deadline 9. */
static const Step receive_order[] = {
    {__LINE__, CLOCK, .at = 3, .value = 100, .record = {.time = 100}},
    {__LINE__, SEND, .at = 3, .bytes = "", .value = 1200,
     .frame = "445259 0002 03 +514 +0 00",
     .log = {"03 +514 00"},
     .record = {.time = 100, .high = 1300, .marks = {{3, 1300}}, .barrier = {{3, 1300}}}},
    {__LINE__, RECEIVE, .at = 3, .bytes = "455259 0003 40 +0 +ffffffffffffffff",
     .broken = true, .output_more = -1, .number = PANEL_REFUSED_RECORD_BROKEN},
    {__LINE__, RECEIVE, .at = 3, .bytes = "455259 0003 40 +0 +ffffffffffffffff",
     .output_more = -1, .number = PANEL_REFUSED_BUFFER_SHORT},
    {__LINE__, RECEIVE, .at = 3, .bytes = "445259 0002 03 +9 +0 00",
     .broken = true, .output_more = -1, .number = PANEL_REFUSED_RECORD_BROKEN},
    {__LINE__, RECEIVE, .at = 3, .bytes = "445259 0002 03 +9 +0 00",
     .output_more = -1, .number = PANEL_REFUSED_BUFFER_SHORT},
    {__LINE__, RECEIVE, .at = 3, .bytes = "455259 0003 40 +0 ffffffff",
     .number = PANEL_REFUSED_FRAME_SHORT},
    {__LINE__, RECEIVE, .at = 3, .bytes = "455259 0003 40 +0 ffffffff 21",
     .number = PANEL_REFUSED_FRAME_MARK},
    {__LINE__, RECEIVE, .at = 3, .bytes = "445259 0003 40 +0 ffffffff 21",
     .number = PANEL_REFUSED_FRAME_VERSION},
    {__LINE__, RECEIVE, .at = 3, .bytes = "445259 0002 40 +0 +ffffffffffffffff",
     .number = PANEL_REFUSED_FRAME_SHORT},
    {__LINE__, RECEIVE, .at = 3, .bytes = "445259 0002 40 +0 +ffffffffffffffff 21",
     .number = PANEL_REFUSED_FRAME_SOURCE},
    {__LINE__, RECEIVE, .at = 3, .bytes = "445259 0002 03 +0 +ffffffffffffffff 21",
     .number = PANEL_REFUSED_FRAME_DEADLINE},
    {__LINE__, RECEIVE, .at = 3, .bytes = "445259 0002 03 +9 +18 +9 21",
     .number = PANEL_REFUSED_FRAME_SHORT},
    {__LINE__, RECEIVE, .at = 3, .bytes = "445259 0002 03 +9 +8 +9 21",
     .number = PANEL_REFUSED_FRAME_ENTRY},
    {__LINE__, RECEIVE, .at = 3, .bytes = "445259 0002 03 +9 +8 +8 21",
     .number = PANEL_REFUSED_FRAME_PAYLOAD_LENGTH},
    {__LINE__, RECEIVE, .at = 3, .bytes = "445259 0002 03 +9 +8 +8 01",
     .number = PANEL_REFUSED_FRAME_SHORT},
    {__LINE__, RECEIVE, .at = 3, .bytes = "445259 0002 03 +9 +8 +8 01 6161",
     .number = PANEL_REFUSED_FRAME_LEFT_OVER},
    {__LINE__, RECEIVE, .at = 3, .bytes = "445259 0002 03 +9 +8 +8 01 61",
     .number = PANEL_REFUSED_OWN_SOURCE},
    /* 21 and 22, then 22 alone: by the mark, at the deadline and below it */
    {__LINE__, RECEIVE, .at = 3, .bytes = FROM_1_DUE_700, .log = {"01 +2bc 00"},
     .record = {.time = 100, .high = 1300, .marks = {{1, 700}, {3, 1300}},
                .barrier = {{1, 700}, {3, 1300}}}},
    {__LINE__, RECEIVE, .at = 3, .bytes = "445259 0002 01 +63 +0 00",
     .number = PANEL_REFUSED_LAPSED},
    {__LINE__, RECEIVE, .at = 3, .bytes = FROM_1_DUE_700, .number = PANEL_REFUSED_HAD_ALREADY},
    {__LINE__, RECEIVE, .at = 3, .bytes = FROM_1_DUE_100, .number = PANEL_REFUSED_HAD_ALREADY},
};

/* Panel 3 has a message of panel 1 in its log that is far ahead, so that 32 and 22 apply to that
   one, and to one of its own 20 and 32; 21 and 32 apply both by the floor alone. */
static const Step far_order[] = {
    {__LINE__, RECEIVE, .at = 3, .bytes = FROM_1_DUE_1209701, .broken = true, .output_more = -1,
     .number = PANEL_REFUSED_RECORD_BROKEN},
    {__LINE__, RECEIVE, .at = 3, .bytes = FROM_1_DUE_1209701, .output_more = -1,
     .number = PANEL_REFUSED_BUFFER_SHORT},
    {__LINE__, RECEIVE, .at = 3, .bytes = "445259 0002 01 +127565 +2 +127565 21",
     .number = PANEL_REFUSED_FRAME_ENTRY},
    {__LINE__, RECEIVE, .at = 3, .bytes = "445259 0002 01 +127565 +0 21",
     .number = PANEL_REFUSED_FRAME_PAYLOAD_LENGTH},
    {__LINE__, RECEIVE, .at = 3, .bytes = "445259 0002 01 +127565 +0 01",
     .number = PANEL_REFUSED_FRAME_SHORT},
    {__LINE__, RECEIVE, .at = 3, .bytes = FROM_1_DUE_1209701 "00",
     .number = PANEL_REFUSED_FRAME_LEFT_OVER},
    {__LINE__, RECEIVE, .at = 3, .bytes = "445259 0002 03 +127565 +0 00",
     .number = PANEL_REFUSED_OWN_SOURCE},
    {__LINE__, RECEIVE, .at = 3, .bytes = FROM_1_DUE_1209701,
     .number = PANEL_REFUSED_TOO_FAR_AHEAD},
    {__LINE__, RECEIVE, .at = 3, .bytes = FROM_1_DUE_1209700, .number = PANEL_REFUSED_HAD_ALREADY},
};

/* With a full list: 20, 32 and 22 before 23. A message that has lapsed is ready: never 21 and
   23. */
static void full_order(void)
{
    start("order with a full list");
    fill();
    full.log[0] = "04 +64 00";
    full.record.high = 100;
    full.record.marks[0] = full.record.barrier[0] = (Due){4, 100};
    receive_full(__LINE__, "445259 0002 04 +64 +0 00", PANEL_ACCEPTED);
    full.log[0] = NULL;
    receive_full(__LINE__, "445259 0002 07 +c8 +2 +32 00",
                 PANEL_REFUSED_OWN_SOURCE);
    receive_full(__LINE__, "445259 0002 04 +64 +2 +32 00",
                 PANEL_REFUSED_HAD_ALREADY);
    receive_full(__LINE__, "445259 0002 02 +83 +2 +32 00",
                 PANEL_REFUSED_HAD_ALREADY);
    receive_full(__LINE__, "445259 0002 04 +65 +2 +32 00",
                 PANEL_REFUSED_LIST_FULL);
    /* one that names the barrier entry too, which stays */
    receive_full(__LINE__, "445259 0002 04 +65 +12 +32 +64 00",
                 PANEL_REFUSED_LIST_FULL);
    receive_full(__LINE__, "445259 0002 04 +127500 +2 +32 00",
                 PANEL_REFUSED_LIST_FULL);
    receive_full(__LINE__, "445259 0002 04 +127501 +2 +32 00",
                 PANEL_REFUSED_TOO_FAR_AHEAD);
    receive_full(__LINE__, FROM_1_DUE_1209601, PANEL_REFUSED_TOO_FAR_AHEAD);
}

/* ---- Broken records, and odd ones ---- */

/* The record of panel 3 with a change in p or in slot, that of its last waiting message. */
#define BROKEN(change)                              \
    do {                                            \
        Panel p = panels[3];                        \
        uint8_t *slot = p.slots + PANEL_SLOT_BYTES; \
        (void)slot;                                 \
        change;                                     \
        refused_as_broken(__LINE__, &p);            \
    } while (0)

/* Panel 3 with two waiting messages, its high at 100. */
static const Step two_waiting[] = {
    {__LINE__, RECEIVE, .at = 3, .bytes = CHAIN_1, .log = {"01 +64 01 61"},
     .record = {.high = 100, .marks = {{1, 100}}, .barrier = {{1, 100}}}},
    {__LINE__, RECEIVE, .at = 3, .bytes = CHAIN_4,
     .record = {.high = 100, .marks = {{1, 100}}, .barrier = {{1, 100}}, .waiting = {CHAIN_4}}},
    {__LINE__, RECEIVE, .at = 3, .bytes = CHAIN_3,
     .record = {.high = 100, .marks = {{1, 100}}, .barrier = {{1, 100}},
                .waiting = {CHAIN_4, CHAIN_3}}},
};

static void broken_records(void)
{
    RUN("broken records", two_waiting);
    panels[3].time = 50; /* so that a set back would lower it */
    BROKEN(p.own = 64);
    BROKEN(p.own = 255);
    BROKEN(p.marks[0] = 101);
    BROKEN(p.marks[63] = LAST);
    BROKEN(p.barrier[0] = 101);
    BROKEN(p.barrier[63] = LAST);
    BROKEN(p.high = 99);
    BROKEN(p.count = 33);
    BROKEN(p.count = SIZE_MAX);
    BROKEN(p.count = 3);                /* the third slot holds no frame */
    BROKEN(slot[1] = 0);                /* no byte */
    BROKEN(slot[1] = 31);               /* the payload cut off */
    BROKEN(slot[1] = 33);               /* a byte left over */
    BROKEN(slot[0] = 1);                /* 256 bytes left over */
    BROKEN(slot[0] = 255);              /* more bytes than the slot has */
    BROKEN(slot[2] = 0x45);             /* mark */
    BROKEN(slot[2 + 4] = 1);            /* version */
    BROKEN(slot[2 + 4] = 3);
    BROKEN(slot[2 + 5] = 64);           /* source */
    BROKEN(memset(slot + 2 + 6, 0, 8)); /* deadline 0 */
    BROKEN(slot[2 + 21] = 3);           /* two entries, and bytes for one */
    BROKEN(slot[2 + 29] = 0);           /* entry 0 */
    BROKEN(slot[2 + 29] = 0x66);        /* entry equal to the deadline */
    BROKEN(slot[2 + 30] = 33);          /* payload length */

    /* 33 waiting, and each of the 32 slots holds a frame */
    fill();
    panels[7].count = 33;
    panels[7].time = 50;
    refused_as_broken(__LINE__, &panels[7]);
}

/* A record at the limits of 26, with other bytes where they are no part of it. */
static void whole_record(void)
{
    static const Step same_time = {
        __LINE__, CLOCK, .at = 63, .value = 0,
        .record = {.high = 100, .marks = {{1, 100}, {63, 100}}, .barrier = {{0, 100}, {1, 100}},
                   .waiting = {CHAIN_4, CHAIN_3}}};

    RUN("a record that is not broken", two_waiting);
    Panel p = panels[3];
    p.own = 63;
    p.marks[63] = p.barrier[0] = 100;
    memset(p.slots + 2 + 32, 0xff, PANEL_SLOT_BYTES - 2 - 32);
    memset(p.slots + 2 * PANEL_SLOT_BYTES, 0xff, 30 * PANEL_SLOT_BYTES);
    call(&same_time, &p);
}

/* Records that no list of calls leads to are worked on, if 26 does not name them. */
static void odd_records(void)
{
    static const Step lapsed = {__LINE__, RECEIVE, .at = 3, .bytes = CHAIN_4,
                                .number = PANEL_REFUSED_LAPSED};
    static const Step dropped = {
        __LINE__, CLOCK, .at = 3, .value = 104,
        .record = {.time = 104, .high = 100, .marks = {{1, 100}}, .barrier = {{1, 100}}}};
    static const Step twice = {
        __LINE__, CLOCK, .at = 3, .value = 0,
        .log = {"01 +66 01 63", "01 +67 01 64", "01 +67 01 7a"},
        .record = {.high = 103, .marks = {{1, 103}}, .barrier = {{1, 103}}}};

    /* 21 before 22: a waiting message that has lapsed */
    RUN("odd records", two_waiting);
    panels[3].time = 104;
    step(&lapsed);
    step(&dropped);

    /* waiting messages that are ready, one of them twice: then the earliest in the list first */
    RUN("odd records", two_waiting);
    put_waiting(&panels[3], "445259 0002 01 +67 +2 +66 01 7a");
    panels[3].high = panels[3].marks[1] = panels[3].barrier[1] = 101;
    step(&twice);
}

/* ---- Traces ---- */

/* Entries of 100 and 101 of panels 0 and 63. */
#define AFTER_0_63 "445259 0002 14 +3e8 +8000000000000001 +64 +65 00"

/* Far ahead at time 0: AFTER_3_7_9 with deadline 1,209,601, and one of panel 2. */
#define FAR_AFTER_3_7_9 "445259 0002 14 +127501 +288 +64 +65 +66 00"
#define FAR_FROM_2_AFTER_1 "445259 0002 02 +127501 +2 +64 00"

/* What is traced at panel 2, and what the trace is to answer. */
static const struct {
    int line;
    const char *frame;
    Record record;
    PanelTrace answer;
} traces[] = {
    {__LINE__, FROM_1_DUE_100, {.time = 0}, {0, true, 0}},
    /* one entry: the mark below it, at it and above it */
    {__LINE__, FROM_5_DUE_200_AFTER_1, {.time = 0}, {0, false, 1}},
    {__LINE__, FROM_5_DUE_200_AFTER_1, {.high = 99, .marks = {{1, 99}}}, {0, false, 1}},
    {__LINE__, FROM_5_DUE_200_AFTER_1, {.high = 100, .marks = {{1, 100}}}, {0, true, 1}},
    {__LINE__, FROM_5_DUE_200_AFTER_1, {.high = 101, .marks = {{1, 101}}}, {0, true, 1}},
    /* the first of three that is not met, whatever is met behind it */
    {__LINE__, AFTER_3_7_9, {.time = 0}, {0, false, 1}},
    {__LINE__, AFTER_3_7_9, {.high = 102, .marks = {{7, 102}, {9, 102}}}, {0, false, 1}},
    {__LINE__, AFTER_3_7_9, {.high = 102, .marks = {{3, 100}}}, {0, false, 2}},
    {__LINE__, AFTER_3_7_9, {.high = 102, .marks = {{3, 100}, {9, 102}}}, {0, false, 2}},
    {__LINE__, AFTER_3_7_9, {.high = 102, .marks = {{3, 100}, {7, 101}}}, {0, false, 3}},
    {__LINE__, AFTER_3_7_9, {.high = 102, .marks = {{3, 100}, {7, 101}, {9, 102}}}, {0, true, 3}},
    /* neither the barrier nor the marks of other panels meet them */
    {__LINE__, AFTER_3_7_9, {.high = 102, .barrier = {{3, 102}, {7, 102}}}, {0, false, 1}},
    {__LINE__, AFTER_3_7_9, {.high = 102, .marks = {{2, 102}, {4, 102}}}, {0, false, 1}},
    /* lapsed entries; one that is equal to the time is alive */
    {__LINE__, AFTER_3_7_9, {.time = 100}, {0, false, 1}},
    {__LINE__, AFTER_3_7_9, {.time = 101}, {0, false, 2}},
    {__LINE__, AFTER_3_7_9, {.time = 102}, {0, false, 3}},
    {__LINE__, AFTER_3_7_9, {.time = 103}, {0, true, 3}},
    {__LINE__, AFTER_3_7_9, {.time = 101, .high = 101, .marks = {{7, 101}}}, {0, false, 3}},
    {__LINE__, AFTER_3_7_9, {.time = 102, .high = 102, .marks = {{9, 102}}}, {0, true, 3}},
    /* entries that have lapsed by the floor; one that is above it is alive */
    {__LINE__, AFTER_3_7_9, {.floor = 99}, {0, false, 1}},
    {__LINE__, AFTER_3_7_9, {.floor = 100}, {0, false, 2}},
    {__LINE__, AFTER_3_7_9, {.floor = 101}, {0, false, 3}},
    {__LINE__, AFTER_3_7_9, {.floor = 102}, {0, true, 3}},
    {__LINE__, AFTER_3_7_9, {.floor = 999}, {0, true, 3}},
    {__LINE__, AFTER_3_7_9, {.time = 102, .floor = 100}, {0, false, 3}},
    {__LINE__, AFTER_3_7_9, {.time = 100, .floor = 101}, {0, false, 3}},
    {__LINE__, AFTER_3_7_9, {.high = 102, .marks = {{9, 102}}, .floor = 101}, {0, true, 3}},
    {__LINE__, AFTER_3_7_9, {.high = 102, .marks = {{3, 100}}, .floor = 99}, {0, false, 2}},
    /* the lowest panel and the highest */
    {__LINE__, AFTER_0_63, {.time = 0}, {0, false, 1}},
    {__LINE__, AFTER_0_63, {.high = 101, .marks = {{63, 101}}}, {0, false, 1}},
    {__LINE__, AFTER_0_63, {.high = 101, .marks = {{0, 100}}}, {0, false, 2}},
    {__LINE__, AFTER_0_63, {.high = 101, .marks = {{0, 100}, {63, 101}}}, {0, true, 2}},
    /* whatever the number is: own source, lapsed, had by the mark, waiting already, broken */
    {__LINE__, FROM_2_DUE_300_AFTER_1, {.time = 0}, {20, false, 1}},
    {__LINE__, FROM_2_DUE_300_AFTER_1, {.time = 101}, {20, true, 1}},
    {__LINE__, AFTER_3_7_9, {.time = 1001}, {21, true, 3}},
    {__LINE__, AFTER_3_7_9, {.floor = 1000}, {21, true, 3}},
    {__LINE__, FROM_1_DUE_100, {.floor = 99}, {0, true, 0}},
    {__LINE__, FROM_1_DUE_100, {.floor = 100}, {21, true, 0}},
    {__LINE__, FROM_2_DUE_300_AFTER_1, {.floor = 300}, {20, true, 1}},
    {__LINE__, FROM_1_DUE_100, {.high = 100, .marks = {{1, 100}}, .floor = 99}, {22, true, 0}},
    {__LINE__, FROM_1_DUE_100, {.high = 100, .marks = {{1, 100}}, .floor = 100}, {21, true, 0}},
    {__LINE__, AFTER_3_7_9, {.high = 1000, .marks = {{3, 100}, {20, 1000}}}, {22, false, 2}},
    {__LINE__, AFTER_3_7_9, {.time = 103, .high = 1000, .marks = {{20, 1000}}}, {22, true, 3}},
    {__LINE__, AFTER_3_7_9, {.waiting = {AFTER_3_7_9}}, {22, false, 1}},
    {__LINE__, AFTER_3_7_9, {.high = 99, .marks = {{3, 100}}}, {26, false, 2}},
    {__LINE__, AFTER_3_7_9, {.time = 103, .high = 0, .barrier = {{3, 100}}}, {26, true, 3}},
    {__LINE__, FROM_1_DUE_100, {.waiting = {"00"}}, {26, true, 0}},
    /* far ahead, as of own source, had by the mark or waiting already; a second later no more */
    {__LINE__, FAR_FROM_2_AFTER_1, {.time = 0}, {20, false, 1}},
    {__LINE__, FAR_AFTER_3_7_9, {.time = 0}, {32, false, 1}},
    {__LINE__, FAR_AFTER_3_7_9, {.high = 102, .marks = {{3, 100}}}, {32, false, 2}},
    {__LINE__, FAR_AFTER_3_7_9, {.high = 102, .marks = {{3, 100}, {7, 101}, {9, 102}}},
     {32, true, 3}},
    {__LINE__, FAR_AFTER_3_7_9, {.high = 1209601, .marks = {{20, 1209601}}}, {32, false, 1}},
    {__LINE__, FAR_AFTER_3_7_9, {.waiting = {FAR_AFTER_3_7_9}}, {32, false, 1}},
    {__LINE__, FAR_AFTER_3_7_9, {.time = 1}, {0, false, 1}},
    {__LINE__, FAR_AFTER_3_7_9, {.time = 1, .waiting = {FAR_AFTER_3_7_9}}, {22, false, 1}},
    {__LINE__, FROM_1_DUE_LAST, {.time = NEAR_LAST - 1}, {32, true, 0}},
    {__LINE__, FROM_1_DUE_LAST, {.time = NEAR_LAST}, {0, true, 0}},
    {__LINE__, FROM_1_DUE_LAST, {.time = NEAR_LAST + 1}, {0, true, 0}},
    /* and by the floor */
    {__LINE__, FAR_AFTER_3_7_9, {.floor = 1209600}, {32, true, 3}},
    {__LINE__, FAR_AFTER_3_7_9, {.floor = 1209601}, {21, true, 3}},
    {__LINE__, FROM_1_DUE_LAST, {.time = 0, .floor = LAST - 1}, {32, true, 0}},
    {__LINE__, FROM_1_DUE_LAST, {.time = 0, .floor = LAST}, {21, true, 0}},
    {__LINE__, FROM_1_DUE_LAST, {.time = LAST, .floor = LAST - 1}, {0, true, 0}},
    {__LINE__, FROM_1_DUE_LAST, {.time = LAST, .floor = LAST}, {21, true, 0}},
};

/* Each hand-written trace; with 33 waiting the same is visited, and the number is 26. */
static void hand_written_traces(void)
{
    part = "traces";
    for (size_t i = 0; i < COUNT(traces); i++) {
        PanelTrace expected = traces[i].answer;
        Panel p = panel_of(2, &traces[i].record);
        check_trace(traces[i].line, &p, traces[i].frame, expected);
        p.count = PANEL_WAITING_MAX + 1;
        expected.number = PANEL_REFUSED_RECORD_BROKEN;
        check_trace(traces[i].line, &p, traces[i].frame, expected);
    }
}

/* With a full list: 23 for one that is not ready, whose trace is answered all the same; 32 if it is
   far ahead. */
static void full_traces(void)
{
    start("traces with a full list");
    fill();
    check_trace(__LINE__, &panels[7], AFTER_3_7_9, (PanelTrace){23, false, 1});
    check_trace(__LINE__, &panels[7], FAR_AFTER_3_7_9, (PanelTrace){32, false, 1});
    check_trace(__LINE__, &panels[7], FROM_1_DUE_100, (PanelTrace){0, true, 0});
    check_trace(__LINE__, &panels[7], full.bytes, (PanelTrace){22, false, 1});
    panels[7].floor = 100;
    check_trace(__LINE__, &panels[7], AFTER_3_7_9, (PanelTrace){23, false, 2});
    panels[7].floor = 102;
    check_trace(__LINE__, &panels[7], AFTER_3_7_9, (PanelTrace){0, true, 3});
}

/* The entry of each panel alone, and with those of all others, the lower ones of which are met. */
static void each_panel_traced(void)
{
    static char one[64], all[2 * PANEL_FRAME_MAX + PANEL_PANELS + 16];
    Panel p = panel_of(2, &(Record){.high = 100});

    part = "traces of each panel's entry";
    put_entries(all, sizeof all, UINT64_MAX);
    for (unsigned s = 0; s < PANEL_PANELS; s++) {
        put_entries(one, sizeof one, (uint64_t)1 << s);
        check_trace(__LINE__, &p, one, (PanelTrace){0, false, 1});
        check_trace(__LINE__, &p, all, (PanelTrace){0, false, s + 1});
        p.marks[s] = 100;
        check_trace(__LINE__, &p, one, (PanelTrace){0, true, 1});
    }
    check_trace(__LINE__, &p, all, (PanelTrace){0, true, PANEL_PANELS});
}

/* ---- Fresh panels ---- */

/* Every byte of the record, whatever was there before. */
static void fresh_panels(void)
{
    static Panel painted;

    part = "fresh panels";
    paint((uint8_t *)&painted, sizeof painted);
    for (unsigned number = 0; number < 256; number++) {
        bool known = number < PANEL_PANELS;
        Panel expected;
        memset(&expected, 0, sizeof expected);
        expected.own = known ? (uint8_t)number : 0;
        lend(&painted);
        same_answer(__LINE__, FRESH, panel_fresh(&lent.panel, (uint8_t)number),
                    known ? PANEL_ACCEPTED : PANEL_REFUSED_PANEL_NUMBER);
        same_bytes(__LINE__, "record", &lent.panel, &expected, sizeof expected, 0);
        check_margins(__LINE__);
    }
}

void test_calls(void)
{
    file = __FILE__;
    fresh_panels();
    RUN("cases 1 and 2", cases_1_and_2);
    RUN("case 4", case_4);
    RUN("case 5", case_5);
    RUN("case 6", case_6);
    RUN("case 7", case_7);
    RUN("case 8", case_8);
    case_9();
    RUN("case 10", case_10);
    RUN("case 11", case_11);
    RUN("settling", settling);
    RUN("after a send", after_a_send);
    RUN("beacons", beacons);
    beacon_after_a_note();
    beacon_as_a_send();
    RUN("far ahead", far_ahead);
    RUN("sent far ahead", sent_far_ahead);
    already_far_ahead();
    farthest_deadlines();
    shorter_barriers();
    setting_back();
    RUN("order of send", send_order);
    beacon_order();
    RUN("order of clock", clock_order);
    RUN("order of receive", receive_order);
    RUN_FROM("order of receive, far ahead", &far_ahead_taken, far_order);
    full_order();
    broken_records();
    whole_record();
    odd_records();
    hand_written_traces();
    full_traces();
    each_panel_traced();
}
