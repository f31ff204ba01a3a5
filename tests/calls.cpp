// The calls from C++: each is made once, and what it gives is checked. calls.c and readers.c test
// the calls in full.
#include "panel.h"

#include <cstdio>
#include <cstdlib>
#include <cstring>

// Ends the program if a claim does not hold.
static void check(bool holds, const char *claim)
{
    if (!holds) {
        std::printf("calls.cpp: %s: this does not hold\n", claim);
        std::exit(EXIT_FAILURE);
    }
}

#define CHECK(claim) check(claim, #claim)

static uint8_t output[PANEL_OUTPUT_MIN];

// Bench case 1: the frame that panel 3 sends, with its length.
static size_t send(uint8_t (&frame)[PANEL_FRAME_MAX])
{
    static Panel three;
    const uint8_t ok[] = {0x4f, 0x4b};

    CHECK(panel_fresh(&three, 64) == PANEL_REFUSED_PANEL_NUMBER);
    CHECK(panel_fresh(&three, 3) == PANEL_ACCEPTED);
    CHECK(panel_clock(&three, 100, output, sizeof output).number == PANEL_ACCEPTED);
    CHECK(panel_clock(&three, 99, output, sizeof output).number == PANEL_REFUSED_CLOCK_BACK);
    PanelAnswer sent = panel_send(&three, ok, sizeof ok, 0, output, sizeof output, frame,
                                  sizeof frame);
    CHECK(sent.number == PANEL_ACCEPTED && sent.count == 1 && sent.length == 25);
    return sent.length;
}

// The beacon of a fresh panel, which lapses earlier than a note.
static void beacon()
{
    static Panel five;
    uint8_t frame[PANEL_FRAME_MAX];

    CHECK(panel_fresh(&five, 5) == PANEL_ACCEPTED);
    PanelAnswer sent = panel_beacon(&five, frame, 0, output, sizeof output, frame, sizeof frame);
    CHECK(sent.number == PANEL_ACCEPTED && sent.count == 1 && sent.length == PANEL_FRAME_2_MIN);
    PanelLogRecord record = panel_log_record(output, sent.count * PANEL_LOG_RECORD, 0);
    CHECK(record.source == 5 && record.deadline == PANEL_LIFETIME_BEACON && record.length == 0);
    CHECK(panel_frame_check(frame, sent.length) == PANEL_ACCEPTED);
}

static void receive(const uint8_t *frame, size_t length)
{
    static Panel four;

    CHECK(panel_fresh(&four, 4) == PANEL_ACCEPTED);
    PanelAnswer received = panel_receive(&four, frame, length, output, sizeof output);
    CHECK(received.number == PANEL_ACCEPTED && received.count == 1 && received.length == 0);
    PanelLogRecord record = panel_log_record(output, received.count * PANEL_LOG_RECORD, 0);
    CHECK(record.source == 3 && record.deadline == 7300 && record.length == 2);
    CHECK(std::memcmp(record.payload, "OK", 2) == 0);
    CHECK(panel_log_record(output, received.count * PANEL_LOG_RECORD, 1).deadline == 0);
}

// A message of panel 1 that waits for one of panel 0 and one of panel 2, at a fresh panel 6, which
// takes the first of them in between.
static void trace()
{
    static Panel six;
    const uint8_t first[] = {0x44, 0x52, 0x59, 0, 2, 0, 0, 0, 0, 0, 0, 0, 0, 7, 0, 0, 0, 0, 0, 0, 0,
                             0,    0};
    const uint8_t later[] = {0x44, 0x52, 0x59, 0, 2, 1, 0, 0, 0, 0, 0, 0, 0, 9, 0, 0, 0, 0, 0, 0, 0,
                             5,    0,    0,    0, 0, 0, 0, 0, 7, 0, 0, 0, 0, 0, 0, 0, 8, 0};

    CHECK(panel_fresh(&six, 6) == PANEL_ACCEPTED);
    PanelTrace before = panel_trace(&six, later, sizeof later);
    CHECK(before.number == PANEL_ACCEPTED && !before.ready && before.visited == 1);
    PanelAnswer received = panel_receive(&six, first, sizeof first, output, sizeof output);
    CHECK(received.number == PANEL_ACCEPTED && received.count == 1);
    PanelTrace after = panel_trace(&six, later, sizeof later);
    CHECK(after.number == PANEL_ACCEPTED && !after.ready && after.visited == 2);
    PanelTrace again = panel_trace(&six, first, sizeof first);
    CHECK(again.number == PANEL_REFUSED_HAD_ALREADY && again.ready && again.visited == 0);
    PanelTrace cut = panel_trace(&six, later, sizeof later - 1);
    CHECK(cut.number == PANEL_REFUSED_FRAME_SHORT && !cut.ready && cut.visited == 0);
}

// A message of panel 1 in both versions at a fresh panel 10: it waits as version 2, and the version
// that comes second is refused.
static void versions()
{
    static Panel ten;
    const uint8_t one[] = {0x44, 0x52, 0x59, 0, 1, 1, 0, 0, 0, 9, 0, 0,
                           0,    0,    0,    0, 0, 1, 0, 0, 0, 7, 0};
    const uint8_t two[] = {0x44, 0x52, 0x59, 0, 2, 1, 0, 0, 0, 0, 0, 0, 0, 9, 0, 0,
                           0,    0,    0,    0, 0, 1, 0, 0, 0, 0, 0, 0, 0, 7, 0};

    CHECK(panel_fresh(&ten, 10) == PANEL_ACCEPTED);
    CHECK(panel_frame_check(one, sizeof one) == PANEL_ACCEPTED);
    CHECK(panel_frame_check(two, sizeof two) == PANEL_ACCEPTED);
    CHECK(panel_receive(&ten, one, sizeof one, output, sizeof output).number == PANEL_ACCEPTED);
    CHECK(ten.count == 1 && ten.slots[0] == 0 && ten.slots[1] == sizeof two);
    CHECK(std::memcmp(ten.slots + 2, two, sizeof two) == 0);
    PanelAnswer again = panel_receive(&ten, two, sizeof two, output, sizeof output);
    CHECK(again.number == PANEL_REFUSED_HAD_ALREADY && ten.count == 1);
}

// The farthest deadline at time 1, one above what a fresh panel takes, as a note of panel 3, which
// is an old one.
static void far_ahead()
{
    static Panel eight;
    const uint64_t deadline = PANEL_FARTHEST_AHEAD + 1;
    const uint8_t note[] = {0x44, 0x52, 0x59, 0, 1, 3, uint8_t(deadline >> 24),
                            uint8_t(deadline >> 16), uint8_t(deadline >> 8), uint8_t(deadline),
                            0, 0, 0, 0, 0, 0, 0, 0, 0};

    CHECK(panel_fresh(&eight, 8) == PANEL_ACCEPTED);
    CHECK(panel_trace(&eight, note, sizeof note).number == PANEL_REFUSED_TOO_FAR_AHEAD);
    PanelAnswer early = panel_receive(&eight, note, sizeof note, output, sizeof output);
    CHECK(early.number == PANEL_REFUSED_TOO_FAR_AHEAD && early.count == 0);
    CHECK(panel_clock(&eight, 1, output, sizeof output).number == PANEL_ACCEPTED);
    PanelAnswer again = panel_receive(&eight, note, sizeof note, output, sizeof output);
    CHECK(again.number == PANEL_ACCEPTED && again.count == 1);
    CHECK(panel_log_record(output, PANEL_LOG_RECORD, 0).deadline == deadline);
}

// Panel 9 hands a message of panel 1 without that of panel 0 that it names, as its clock is ahead.
// Set back, it refuses that one by the floor, and takes the next of panel 0.
static void set_back()
{
    static Panel nine, before;
    const uint8_t first[] = {0x44, 0x52, 0x59, 0, 2, 0, 0, 0, 0, 0, 0, 0, 0, 7, 0, 0, 0, 0, 0, 0, 0,
                             0,    0};
    const uint8_t next[] = {0x44, 0x52, 0x59, 0, 2, 0, 0, 0, 0, 0, 0, 0, 0, 8, 0, 0, 0, 0, 0, 0, 0,
                            0,    0};
    const uint8_t later[] = {0x44, 0x52, 0x59, 0, 2, 1, 0, 0, 0, 0, 0, 0, 0, 9, 0, 0,
                             0,    0,    0,    0, 0, 1, 0, 0, 0, 0, 0, 0, 0, 7, 0};

    CHECK(panel_fresh(&nine, 9) == PANEL_ACCEPTED && nine.floor == 0);
    CHECK(panel_receive(&nine, later, sizeof later, output, sizeof output).count == 0);
    CHECK(panel_clock(&nine, 8, output, sizeof output).count == 1 && nine.floor == 7);
    CHECK(panel_clock(&nine, 1000, output, sizeof output).number == PANEL_ACCEPTED);
    PanelAnswer deaf = panel_receive(&nine, next, sizeof next, output, sizeof output);
    CHECK(deaf.number == PANEL_REFUSED_LAPSED);
    std::memcpy(&before, &nine, sizeof nine);
    CHECK(panel_set_back(&nine, 1001) == PANEL_ACCEPTED && nine.time == 1000);
    CHECK(panel_set_back(&nine, 5) == PANEL_ACCEPTED && nine.time == 5);
    before.time = 5;
    CHECK(std::memcmp(&nine, &before, sizeof nine) == 0);
    CHECK(panel_trace(&nine, first, sizeof first).number == PANEL_REFUSED_LAPSED);
    PanelAnswer taken = panel_receive(&nine, next, sizeof next, output, sizeof output);
    CHECK(taken.number == PANEL_ACCEPTED && taken.count == 1);
    nine.own = PANEL_PANELS;
    CHECK(panel_set_back(&nine, 4) == PANEL_REFUSED_RECORD_BROKEN && nine.time == 5);
}

// Panels 0 to 3 of a busy yard: each takes the notes before it and sends one, which names the last
// of them alone.
static void busy_yard()
{
    static Panel panels[4];
    uint8_t notes[4][PANEL_FRAME_MAX];
    size_t lengths[4];
    const uint8_t nothing = 0;

    for (uint8_t own = 0; own < 4; own++) {
        Panel *panel = &panels[own];
        CHECK(panel_fresh(panel, own) == PANEL_ACCEPTED);
        for (int i = 0; i < own; i++)
            CHECK(panel_receive(panel, notes[i], lengths[i], output, sizeof output).count == 1);
        PanelAnswer sent = panel_send(panel, &nothing, 0, uint16_t(100 * (own + 1)), output,
                                      sizeof output, notes[own], sizeof notes[own]);
        CHECK(sent.number == PANEL_ACCEPTED && sent.length == (own == 0 ? 23 : 31));
        const uint8_t lowest = notes[own][PANEL_FRAME_MASK_AT + 7]; // byte of the mask
        CHECK(lowest == (own == 0 ? 0 : 1 << (own - 1)));
        lengths[own] = sent.length;
    }
}

int main()
{
    uint8_t bytes[2 + PANEL_FRAME_MAX] = {0, 25}, sent[PANEL_FRAME_MAX];
    const uint8_t *frame;
    size_t length = send(sent);

    CHECK(panel_frame_check(sent, length) == PANEL_ACCEPTED);
    CHECK(panel_frame_check(sent, length - 1) == PANEL_REFUSED_FRAME_SHORT);
    std::memcpy(bytes + 2, sent, length);
    PanelBundle bundle = panel_bundle(bytes, 2 + length);
    CHECK(panel_bundle_next(&bundle, &frame, &length) == PANEL_BUNDLE_FRAME && length == 25);
    receive(frame, length);
    beacon();
    trace();
    versions();
    far_ahead();
    set_back();
    busy_yard();
    CHECK(panel_bundle_next(&bundle, &frame, &length) == PANEL_BUNDLE_END && length == 0);
    CHECK(std::strcmp(panel_number_text(PANEL_REFUSED_LAPSED),
                      "the message has lapsed: its deadline is below the time or at most the "
                      "floor") == 0);
    return EXIT_SUCCESS;
}
