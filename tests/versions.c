/*
 * Frames of both versions at panels, and numbers of 64 bits: both versions of a message are one,
 * version 1 waits as version 2, and is no frame in a slot; deadlines about 4,294,967,295 and about
 * the last one. Frames of version 1 are written out; what waits is written in version 2.
 */
#include "steps.h"

#include <string.h>

/* ---- Both versions of a message ---- */

#define FIRST_1 "445259 0001 01 00000064 0000000000000000 00"
#define FIRST_2 "445259 0002 01 +64 +0 00"

/* after 100 of panel 1, and after 100, 101 and 102 of panels 1, 7 and 9, with a payload */
#define AFTER_1 "445259 0001 05 000000c8 0000000000000002 00000064 00"
#define AFTER_2 "445259 0002 05 +c8 +2 +64 00"
#define THREE_1 "445259 0001 14 000003e8 0000000000000282 00000064 00000065 00000066 02 4f4b"
#define THREE_2 "445259 0002 14 +3e8 +282 +64 +65 +66 02 4f4b"

/* Panels 2 and 4 have version 1 or version 2 first; then the other one, and the same again. */
static const Step one_message[] = {
    {__LINE__, RECEIVE, .at = 2, .bytes = AFTER_1, .record = {.waiting = {AFTER_2}}},
    {__LINE__, RECEIVE, .at = 2, .bytes = AFTER_2, .number = PANEL_REFUSED_HAD_ALREADY},
    {__LINE__, RECEIVE, .at = 2, .bytes = AFTER_1, .number = PANEL_REFUSED_HAD_ALREADY},
    {__LINE__, RECEIVE, .at = 2, .bytes = FIRST_1, .log = {"01 +64 00", "05 +c8 00"},
     .record = {.high = 200, .marks = {{1, 100}, {5, 200}}, .barrier = {{5, 200}}}},
    {__LINE__, RECEIVE, .at = 2, .bytes = FIRST_2, .number = PANEL_REFUSED_HAD_ALREADY},
    {__LINE__, RECEIVE, .at = 2, .bytes = AFTER_2, .number = PANEL_REFUSED_HAD_ALREADY},

    {__LINE__, RECEIVE, .at = 4, .bytes = AFTER_2, .record = {.waiting = {AFTER_2}}},
    {__LINE__, RECEIVE, .at = 4, .bytes = AFTER_1, .number = PANEL_REFUSED_HAD_ALREADY},
    {__LINE__, RECEIVE, .at = 4, .bytes = FIRST_2, .log = {"01 +64 00", "05 +c8 00"},
     .record = {.high = 200, .marks = {{1, 100}, {5, 200}}, .barrier = {{5, 200}}}},
    {__LINE__, RECEIVE, .at = 4, .bytes = FIRST_1, .number = PANEL_REFUSED_HAD_ALREADY},
    {__LINE__, RECEIVE, .at = 4, .bytes = AFTER_1, .number = PANEL_REFUSED_HAD_ALREADY},
};

/* Version 1 waits behind version 2, moves up, and is handed; the barrier entry that it names is
   removed, and the floor rises. The next send has the entries in version 2. */
static const Step waits[] = {
    {__LINE__, RECEIVE, .at = 3, .bytes = AFTER_2, .record = {.waiting = {AFTER_2}}},
    {__LINE__, RECEIVE, .at = 3, .bytes = THREE_1, .record = {.waiting = {AFTER_2, THREE_2}}},
    {__LINE__, RECEIVE, .at = 3, .bytes = "445259 0001 07 00000065 0000000000000000 00",
     .log = {"07 +65 00"},
     .record = {.high = 101, .marks = {{7, 101}}, .barrier = {{7, 101}},
                .waiting = {AFTER_2, THREE_2}}},
    {__LINE__, RECEIVE, .at = 3, .bytes = FIRST_1, .log = {"01 +64 00", "05 +c8 00"},
     .record = {.high = 200, .marks = {{1, 100}, {5, 200}, {7, 101}},
                .barrier = {{5, 200}, {7, 101}}, .waiting = {THREE_2}}},
    /* the third lapses, and the log goes without it */
    {__LINE__, CLOCK, .at = 3, .value = 103, .log = {"14 +3e8 02 4f4b"},
     .record = {.time = 103, .high = 1000, .marks = {{1, 100}, {5, 200}, {7, 101}, {20, 1000}},
                .barrier = {{5, 200}, {20, 1000}}, .floor = 102}},
    {__LINE__, SEND, .at = 3, .bytes = "", .value = 1, .log = {"03 +3e9 00"},
     .frame = "445259 0002 03 +3e9 +100020 +c8 +3e8 00",
     .record = {.time = 103, .high = 1001,
                .marks = {{1, 100}, {3, 1001}, {5, 200}, {7, 101}, {20, 1000}},
                .barrier = {{3, 1001}}, .floor = 102}},
};

/* Refusals of version 1 by the state of panel 2, and their order. */
#define OWN_1 "445259 0001 02 000000c8 0000000000000002 00000064 00"

static const Step refusals[] = {
    {__LINE__, RECEIVE, .at = 2, .bytes = OWN_1, .broken = true, .output_more = -1,
     .number = PANEL_REFUSED_RECORD_BROKEN},
    {__LINE__, RECEIVE, .at = 2, .bytes = OWN_1, .output_more = -1,
     .number = PANEL_REFUSED_BUFFER_SHORT},
    {__LINE__, RECEIVE, .at = 2, .bytes = OWN_1, .number = PANEL_REFUSED_OWN_SOURCE},
    {__LINE__, RECEIVE, .at = 2, .bytes = "445259 0001 01 00127501 0000000000000000 00",
     .number = PANEL_REFUSED_TOO_FAR_AHEAD},
    {__LINE__, RECEIVE, .at = 2, .bytes = "445259 0001 01 00127500 0000000000000000 00",
     .log = {"01 +127500 00"},
     .record = {.high = 1209600, .marks = {{1, 1209600}}, .barrier = {{1, 1209600}}}},
    {__LINE__, RECEIVE, .at = 2, .bytes = FIRST_1, .number = PANEL_REFUSED_HAD_ALREADY},
    {__LINE__, CLOCK, .at = 2, .value = 201,
     .record = {.time = 201, .high = 1209600, .marks = {{1, 1209600}}, .barrier = {{1, 1209600}}}},
    {__LINE__, RECEIVE, .at = 2, .bytes = AFTER_1, .number = PANEL_REFUSED_LAPSED},
};

/* A full list: copies of either version, and one more, which is ready or not. */
static void full_list(void)
{
    Panel p = panel_of(2, &(Record){.waiting = {AFTER_2}});

    part = "versions and a full list";
    while (p.count < PANEL_WAITING_MAX)
        put_waiting(&p, "445259 0002 06 +c8 +2 +64 00");
    check_trace(__LINE__, &p, AFTER_1, (PanelTrace){22, false, 1});
    check_trace(__LINE__, &p, AFTER_2, (PanelTrace){22, false, 1});
    check_trace(__LINE__, &p, THREE_1, (PanelTrace){23, false, 1});
    check_trace(__LINE__, &p, THREE_2, (PanelTrace){23, false, 1});
    check_trace(__LINE__, &p, FIRST_1, (PanelTrace){0, true, 0});
    p.high = p.marks[1] = 100;
    check_trace(__LINE__, &p, THREE_1, (PanelTrace){23, false, 2});
    p.time = 103;
    check_trace(__LINE__, &p, THREE_1, (PanelTrace){0, true, 3});
}

/* A frame of version 1 in a slot: the record is broken, wherever it stands; behind the waiting
   messages it is no part of the record. With version 2 there the record is whole. */
static void in_a_slot(void)
{
    static const Step same_time = {__LINE__, CLOCK, .at = 3, .value = 50,
                                   .record = {.time = 50, .waiting = {THREE_2, AFTER_2}}};
    static const Record records[] = {
        {.time = 50, .waiting = {AFTER_1}},
        {.time = 50, .waiting = {THREE_1, AFTER_2}},
        {.time = 50, .waiting = {THREE_2, AFTER_1}},
    };

    part = "version 1 in a slot";
    for (size_t i = 0; i < COUNT(records); i++) {
        Panel p = panel_of(3, &records[i]);
        refused_as_broken(__LINE__, &p);
        check_trace(__LINE__, &p, FIRST_1, (PanelTrace){26, true, 0});
    }
    Panel whole = panel_of(3, &same_time.record);
    put_waiting(&whole, AFTER_1);
    whole.count--;
    call(&same_time, &whole);
}

/* ---- About 4,294,967,295, the last deadline of version 1 ---- */

#define DUE_LAST_1 "445259 0001 01 ffffffff 0000000000000000 00"
#define DUE_LAST_1_AS_2 "445259 0002 01 00000000ffffffff 0000000000000000 00"
#define DUE_NEXT "445259 0002 01 0000000100000000 0000000000000002 00000000ffffffff 00"
#define DUE_AFTER_NEXT "445259 0002 01 0000000100000001 0000000000000002 0000000100000000 00"

static const Step about_32_bits[] = {
    /* panel 1 sends the last deadline of version 1, and goes on: by the time, and by high */
    {__LINE__, CLOCK, .at = 1, .value = 4294967294, .record = {.time = 4294967294}},
    {__LINE__, SEND, .at = 1, .bytes = "", .value = 1, .frame = DUE_LAST_1_AS_2,
     .log = {"01 00000000ffffffff 00"},
     .record = {.time = 4294967294, .high = 4294967295, .marks = {{1, 4294967295}},
                .barrier = {{1, 4294967295}}}},
    {__LINE__, SEND, .at = 1, .bytes = "", .value = 2, .frame = DUE_NEXT,
     .log = {"01 0000000100000000 00"},
     .record = {.time = 4294967294, .high = 4294967296, .marks = {{1, 4294967296}},
                .barrier = {{1, 4294967296}}}},
    {__LINE__, SEND, .at = 1, .bytes = "", .value = 1, .frame = DUE_AFTER_NEXT,
     .log = {"01 0000000100000001 00"},
     .record = {.time = 4294967294, .high = 4294967297, .marks = {{1, 4294967297}},
                .barrier = {{1, 4294967297}}}},
    /* panel 2 takes them the other way round, the first in version 1 */
    {__LINE__, CLOCK, .at = 2, .value = 4294967295, .record = {.time = 4294967295}},
    {__LINE__, RECEIVE, .at = 2, .bytes = DUE_AFTER_NEXT,
     .record = {.time = 4294967295, .waiting = {DUE_AFTER_NEXT}}},
    {__LINE__, RECEIVE, .at = 2, .bytes = DUE_NEXT,
     .record = {.time = 4294967295, .waiting = {DUE_AFTER_NEXT, DUE_NEXT}}},
    {__LINE__, RECEIVE, .at = 2, .bytes = DUE_LAST_1,
     .log = {"01 00000000ffffffff 00", "01 0000000100000000 00", "01 0000000100000001 00"},
     .record = {.time = 4294967295, .high = 4294967297, .marks = {{1, 4294967297}},
                .barrier = {{1, 4294967297}}}},
    {__LINE__, RECEIVE, .at = 2, .bytes = DUE_LAST_1_AS_2, .number = PANEL_REFUSED_HAD_ALREADY},
    /* at panel 4 the first has lapsed */
    {__LINE__, CLOCK, .at = 4, .value = 4294967296, .record = {.time = 4294967296}},
    {__LINE__, RECEIVE, .at = 4, .bytes = DUE_LAST_1, .number = PANEL_REFUSED_LAPSED},
    {__LINE__, RECEIVE, .at = 4, .bytes = DUE_AFTER_NEXT,
     .record = {.time = 4294967296, .waiting = {DUE_AFTER_NEXT}}},
    {__LINE__, CLOCK, .at = 4, .value = 4294967297, .log = {"01 0000000100000001 00"},
     .record = {.time = 4294967297, .high = 4294967297, .marks = {{1, 4294967297}},
                .barrier = {{1, 4294967297}}, .floor = 4294967296}},
    {__LINE__, CLOCK, .at = 4, .value = 4294967295, .number = PANEL_REFUSED_CLOCK_BACK},
    {__LINE__, SET_BACK, .at = 4, .value = 4294967295,
     .record = {.time = 4294967295, .high = 4294967297, .marks = {{1, 4294967297}},
                .barrier = {{1, 4294967297}}, .floor = 4294967296}},
    {__LINE__, RECEIVE, .at = 4, .bytes = DUE_NEXT, .number = PANEL_REFUSED_LAPSED},
};

/* Numbers of which the lower 32 bits alone would tell otherwise: panel 3 has had 100 of panel 1. */
#define DUE_FAR "445259 0002 01 0000000100000064 0000000000000000 00"
#define AFTER_FAR "445259 0002 05 0000000100000065 0000000000000002 0000000100000064 00"
#define FAR_TIME ((uint64_t)4294967296)

static const Record had_100 = {.high = 100, .marks = {{1, 100}}, .barrier = {{1, 100}}};

static const Step lower_bits[] = {
    {__LINE__, RECEIVE, .at = 3, .bytes = DUE_FAR, .number = PANEL_REFUSED_TOO_FAR_AHEAD},
    {__LINE__, CLOCK, .at = 3, .value = FAR_TIME,
     .record = {.time = FAR_TIME, .high = 100, .marks = {{1, 100}}, .barrier = {{1, 100}}}},
    {__LINE__, RECEIVE, .at = 3, .bytes = AFTER_FAR,
     .record = {.time = FAR_TIME, .high = 100, .marks = {{1, 100}}, .barrier = {{1, 100}},
                .waiting = {AFTER_FAR}}},
    {__LINE__, RECEIVE, .at = 3, .bytes = DUE_FAR,
     .log = {"01 0000000100000064 00", "05 0000000100000065 00"},
     .record = {.time = FAR_TIME, .high = FAR_TIME + 101,
                .marks = {{1, FAR_TIME + 100}, {5, FAR_TIME + 101}},
                .barrier = {{5, FAR_TIME + 101}}}},
    {__LINE__, SEND, .at = 3, .bytes = "", .value = 1, .log = {"03 0000000100000066 00"},
     .frame = "445259 0002 03 0000000100000066 0000000000000020 0000000100000065 00",
     .record = {.time = FAR_TIME, .high = FAR_TIME + 102,
                .marks = {{1, FAR_TIME + 100}, {3, FAR_TIME + 102}, {5, FAR_TIME + 101}},
                .barrier = {{3, FAR_TIME + 102}}}},
};

/* ---- The last deadline ---- */

/* Sends with a lifetime at panel 3, and which deadline they are to have, or 0: 24. */
static const struct {
    int line;
    Record record;
    uint16_t lifetime;
    uint64_t deadline;
} last_deadlines[] = {
    /* by the time: the sum is the last, one above it, and wraps round as far as it can */
    {__LINE__, {.time = LAST - 7200}, 0, LAST},
    {__LINE__, {.time = LAST - 7199}, 0, 0},
    {__LINE__, {.time = LAST - 65535}, 65535, LAST},
    {__LINE__, {.time = LAST - 65534}, 65535, 0},
    {__LINE__, {.time = LAST}, 1, 0},
    {__LINE__, {.time = LAST}, 65535, 0},
    {__LINE__, {.time = LAST, .high = 1000000}, 65535, 0},
    /* by high, whatever the time */
    {__LINE__, {.high = LAST - 1}, 1, LAST},
    {__LINE__, {.high = LAST}, 1, 0},
    {__LINE__, {.time = LAST - 1, .high = LAST - 1}, 1, LAST},
    {__LINE__, {.time = LAST - 1, .high = LAST}, 1, 0},
    /* with the highest bit set */
    {__LINE__, {.time = HALF - 1}, 1, HALF},
    {__LINE__, {.time = 1, .high = HALF}, 1, HALF + 1},
};

/* The log record has the deadline; a refusal leaves the record as it was. */
static void send_last(void)
{
    part = "sends about the last deadline";
    for (size_t i = 0; i < COUNT(last_deadlines); i++) {
        uint64_t deadline = last_deadlines[i].deadline;
        Step s = {last_deadlines[i].line, SEND, .value = last_deadlines[i].lifetime};
        Panel p = panel_of(3, &last_deadlines[i].record);
        lend(&p);
        PanelAnswer answer = make(&s, (const uint8_t *)"", 0);
        same_answer(s.line, SEND, answer.number,
                    deadline != 0 ? PANEL_ACCEPTED : PANEL_REFUSED_DEADLINE_TOO_HIGH);
        same_number(s.line, "count of log records", answer.count, deadline != 0);
        if (deadline == 0)
            same_bytes(s.line, "record", &lent.panel, &p, sizeof p, 0);
        else
            same_number(s.line, "deadline",
                        panel_log_record(output + MARGIN, PANEL_LOG_RECORD, 0).deadline, deadline);
    }
    same_number(__LINE__, "the last deadline", PANEL_DEADLINE_MAX, LAST);
}

void test_versions(void)
{
    file = __FILE__;
    RUN("both versions of a message", one_message);
    RUN("version 1 that waits", waits);
    RUN("refusals of version 1", refusals);
    full_list();
    in_a_slot();
    RUN("about 32 bits", about_32_bits);
    RUN_FROM("above 32 bits", &had_100, lower_bits);
    send_last();
}
