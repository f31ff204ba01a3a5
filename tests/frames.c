/*
 * The frame check as a C program sees it, and receives and traces of what it turns down: each check
 * and their order, on frames of both versions. Then the longest frames of both.
 */
#include "steps.h"

#include <inttypes.h>
#include <stdio.h>
#include <stdlib.h>
#include <string.h>

typedef struct {
    int line;
    const char *bytes;
    PanelNumber number; /* what the frame check is to answer */
} Frame;

/* Of version 2, and with the same answer of version 1, as put_version_1 makes it. */
static const Frame of_both[] = {
    {__LINE__, "445259 0002 03 +9 +8 +4 03 647279", 0},
    {__LINE__, "445259 0002 00 +1 +0 00", 0},
    {__LINE__, "445259 0002 3f +ffffffff +8000000000000001 +1 +fffffffe 00", 0},
    {__LINE__, "445259 0002 3f +1 +0 20" THIRTY_TWO, 0},
    /* fewer bytes than the shortest */
    {__LINE__, "", 1},
    {__LINE__, "44", 1},
    {__LINE__, "445259 0002 03 +9 +0", 1},
    {__LINE__, "445259 0002 40 +0 +0", 1},
    /* mark */
    {__LINE__, "455259 0002 03 +9 +8 +4 03 647279", 2},
    {__LINE__, "445359 0002 03 +9 +8 +4 03 647279", 2},
    {__LINE__, "445258 0002 03 +9 +8 +4 03 647279", 2},
    /* source */
    {__LINE__, "445259 0002 40 +9 +8 +4 03 647279", 4},
    {__LINE__, "445259 0002 ff +9 +8 +4 03 647279", 4},
    /* deadline 0 */
    {__LINE__, "445259 0002 03 +0 +8 +4 03 647279", 5},
    /* too few bytes for the entries and the length byte */
    {__LINE__, "445259 0002 03 +9 +ffffffffffffffff +4 03 647279", 1},
    {__LINE__, "445259 0002 03 +9 +8 00", 1},
    {__LINE__, "445259 0002 03 +9 +8 +4", 1},
    {__LINE__, "445259 0002 03 +9 +8 +0", 1},
    /* entries */
    {__LINE__, "445259 0002 03 +9 +8 +0 03 647279", 6},
    {__LINE__, "445259 0002 03 +9 +8 +9 03 647279", 6},
    {__LINE__, "445259 0002 03 +9 +8 +ffffffff 03 647279", 6},
    {__LINE__, "445259 0002 03 +9 +8000000000000008 +4 +9 00", 6},
    {__LINE__, "445259 0002 03 +9 +8000000000000008 +0 +4 00", 6},
    /* payload length */
    {__LINE__, "445259 0002 03 +9 +8 +4 21" THIRTY_TWO "69", 7},
    {__LINE__, "445259 0002 03 +9 +8 +4 ff", 7},
    /* too few bytes for the payload */
    {__LINE__, "445259 0002 03 +9 +8 +4 03 6472", 1},
    {__LINE__, "445259 0002 03 +9 +8 +4 03", 1},
    {__LINE__, "445259 0002 03 +9 +0 20", 1},
    /* bytes left over */
    {__LINE__, "445259 0002 03 +9 +8 +4 03 647279 00", 8},
    {__LINE__, "445259 0002 03 +9 +8 +4 02 647279", 8},
    {__LINE__, "445259 0002 03 +9 +0 00 00", 8},
};

/* As they stand here. */
static const Frame of_one[] = {
    /* written out, of version 1 and of version 2 */
    {__LINE__, "445259 0001 03 00000009 0000000000000008 00000004 03 647279", 0},
    {__LINE__, "445259 0002 03 0000000000000009 0000000000000008 0000000000000004 03 647279", 0},
    /* each read as the other one */
    {__LINE__, "445259 0002 03 00000009 0000000000000008 00000004 03 647279", 1},
    {__LINE__, "445259 0001 03 0000000000000009 0000000000000008 0000000000000004 03 647279", 5},
    /* another version, also with too few bytes for version 2 */
    {__LINE__, "445259 0000 03 +9 +8 +4 03 647279", 3},
    {__LINE__, "445259 0003 03 +9 +8 +4 03 647279", 3},
    {__LINE__, "445259 0101 03 +9 +8 +4 03 647279", 3},
    {__LINE__, "445259 0102 03 +9 +8 +4 03 647279", 3},
    {__LINE__, "445259 0200 03 +9 +8 +4 03 647279", 3},
    {__LINE__, "445259 0003 40 +0 00000000 00", 3},
    /* 18 bytes, before mark and version */
    {__LINE__, "000000 0000 ff +0 00000000", 1},
    {__LINE__, "445259 0003 40 +0 00000000", 1},
    /* version 2 with 19 to 22 bytes, before a source of 64 and deadline 0; 23 bytes */
    {__LINE__, "445259 0002 03 +9 00000000 00", 1},
    {__LINE__, "445259 0002 40 +0 00000000 00", 1},
    {__LINE__, "445259 0002 40 +0 00000000 0000", 1},
    {__LINE__, "445259 0002 40 +0 00000000 000000", 1},
    {__LINE__, "445259 0002 40 +0 00000000 00000000", 1},
    {__LINE__, "445259 0002 40 +0 00000000 00000000 00", 4},
    {__LINE__, "445259 0001 40 00000000 0000000000000000 00", 4},
    /* but behind the mark */
    {__LINE__, "445258 0002 40 +0 00000000 00", 2},
    /* deadlines and entries above 32 bits, of which the lower 32 alone would answer otherwise */
    {__LINE__, "445259 0002 03 +100000000 +0 00", 0},
    {__LINE__, "445259 0002 03 +100000000 +8 +ffffffff 00", 0},
    {__LINE__, "445259 0002 03 +100000001 +8 +100000000 00", 0},
    {__LINE__, "445259 0002 03 +200000001 +8 +100000002 00", 0},
    {__LINE__, "445259 0002 03 +100000002 +8 +200000001 00", 6},
    {__LINE__, "445259 0002 03 +ffffffff +8 +100000000 00", 6},
    {__LINE__, "445259 0002 03 +9 +8 +100000004 00", 6},
    /* about the last deadline, and half of it */
    {__LINE__, "445259 0002 3f +ffffffffffffffff +1 +fffffffffffffffe 00", 0},
    {__LINE__, "445259 0002 3f +ffffffffffffffff +1 +ffffffffffffffff 00", 6},
    {__LINE__, "445259 0002 3f +8000000000000000 +1 +7fffffffffffffff 00", 0},
    {__LINE__, "445259 0002 3f +7fffffffffffffff +1 +8000000000000000 00", 6},
};

enum { TEXT_MAX = 2 * PANEL_FRAME_MAX + PANEL_PANELS + 16 };

/* The same text of version 1, if it is one of version 2: numbers have 4 bytes, but for the mask,
   which is the second. */
static void put_version_1(char to[TEXT_MAX], const char *text)
{
    size_t end = 0;
    int numbers = 0;

    while (*text != '\0') {
        if (*text != '+') {
            to[end++] = *text++;
            continue;
        }
        char *behind;
        uint64_t number = strtoull(text + 1, &behind, 16);
        end += (size_t)sprintf(to + end, ++numbers == 2 ? "%016" PRIx64 : "%08" PRIx64, number);
        text = behind;
    }
    to[end] = '\0';
    if (end > strlen("445259 0002"))
        to[strlen("445259 000")] = '1';
}

/* The frame check alone; of what it turns down a receive at panel 9 and traces. */
static void check_frame(const Frame *frame)
{
    uint8_t bytes[BYTES_MAX];
    size_t length = put_bytes(bytes, frame->bytes);
    uint8_t *copy = copy_of(bytes, length);
    Step s = {frame->line, RECEIVE, .at = 9, .bytes = frame->bytes, .number = frame->number};
    Panel broken = panels[9];

    same_number(frame->line, "frame check", panel_frame_check(copy, length), frame->number);
    free_copy(copy);
    if (s.number == PANEL_ACCEPTED)
        return;
    step(&s);
    check_trace(s.line, &panels[9], s.bytes, (PanelTrace){s.number, false, 0});
    broken.own = PANEL_PANELS;
    check_trace(s.line, &broken, s.bytes, (PanelTrace){26, false, 0});
}

static void each_frame(void)
{
    char text[TEXT_MAX];

    start("frames");
    for (size_t i = 0; i < COUNT(of_one); i++)
        check_frame(&of_one[i]);
    for (size_t i = 0; i < COUNT(of_both); i++) {
        Frame version_1 = {of_both[i].line, text, of_both[i].number};
        part = "frames of version 2";
        check_frame(&of_both[i]);
        part = "frames of version 1";
        put_version_1(text, of_both[i].bytes);
        check_frame(&version_1);
    }
}

/* ---- The longest frames ---- */

/* One of so many bytes, one byte less and one more. */
static void check_longest(int line, const char *frame, size_t length)
{
    uint8_t bytes[BYTES_MAX] = {0};

    same_number(line, "length", put_bytes(bytes, frame), length);
    same_number(line, "frame check", panel_frame_check(bytes, length), 0);
    same_number(line, "frame check", panel_frame_check(bytes, length - 1), 1);
    same_number(line, "frame check", panel_frame_check(bytes, length + 1), 8);
}

/* Panel 63 sends, and takes a message of each other panel: `s` expects the record as it is then,
   and its entries stand in the text. */
static void take_from_each(Step *s, char entries[TEXT_MAX])
{
    static char received[64], log[16];
    size_t end = 0;

    *s = (Step){__LINE__, SEND, .at = 63, .bytes = "", .value = 100,
                .frame = "445259 0002 3f +64 +0 00", .log = {"3f +64 00"},
                .record = {.high = 100, .marks = {{63, 100}}, .barrier = {{63, 100}}}};
    step(s);
    *s = (Step){__LINE__, RECEIVE, .at = 63, .bytes = received, .log = {log}, .record = s->record};
    for (unsigned p = 0; p < 63; p++) {
        unsigned due = 200 + p;
        snprintf(received, sizeof received, "445259 0002 %02x +%x +0 00", p, due);
        snprintf(log, sizeof log, "%02x +%x 00", p, due);
        s->record.high = due;
        s->record.marks[1 + p] = s->record.barrier[1 + p] = (Due){(uint8_t)p, due};
        step(s);
        end += (size_t)snprintf(entries + end, TEXT_MAX - end, "+%x ", due);
    }
    snprintf(entries + end, TEXT_MAX - end, "+64");
}

/* Panel 63 sends a frame with 64 entries, which waits at panel 5; at panel 6 that of version 1
   waits as the same frame. */
static void longest_frames(void)
{
    static char frame[TEXT_MAX], frame_1[TEXT_MAX], entries[TEXT_MAX];
    static Step s;

    start("the longest frames");
    take_from_each(&s, entries);
    snprintf(frame, sizeof frame, "445259 0002 3f +3e8 +ffffffffffffffff %.*s 20%s",
             (int)strlen(entries), entries, THIRTY_TWO);
    put_version_1(frame_1, frame);
    s = (Step){__LINE__, SEND, .at = 63, .bytes = THIRTY_TWO, .value = 1000, .frame = frame,
               .log = {"3f +3e8 20" THIRTY_TWO}, .record = s.record};
    s.record.high = 1000;
    s.record.marks[0] = (Due){63, 1000};
    memset(s.record.barrier, 0, sizeof s.record.barrier);
    s.record.barrier[0] = (Due){63, 1000};
    step(&s);
    s = (Step){__LINE__, RECEIVE, .at = 5, .bytes = frame, .record = {.waiting = {frame}}};
    step(&s);
    s = (Step){__LINE__, RECEIVE, .at = 6, .bytes = frame_1, .record = {.waiting = {frame}}};
    step(&s);
    check_longest(__LINE__, frame, PANEL_FRAME_MAX);
    check_longest(__LINE__, frame_1, PANEL_FRAME_1_MAX);
}

void test_frames(void)
{
    file = __FILE__;
    each_frame();
    longest_frames();
}
