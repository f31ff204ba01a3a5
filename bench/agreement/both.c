/* Each call made on both sides, and all that they answer compared. */
#include "both.h"

#include "../convert.h"
#include "../reference_frames.h"
#include "compare.h"
#include "random.h"
#include "seen.h"

#include <string.h>

unsigned long calls_made;

/* ---- Lent buffers ---- */

/*
 * Each call lends a part of a pair of buffers with the same random bytes; all
 * bytes are compared afterwards, those before and behind the part too.
 */
enum { MARGIN = 64, LENT_MAX = 2048, BUFFER = MARGIN + LENT_MAX + MARGIN };

typedef struct {
    size_t length;
    uint8_t proved[BUFFER];
    uint8_t c[BUFFER];
} Lent;

static Lent output, buffer;

static void lend(Lent *lent, size_t least)
{
    random_bytes(lent->proved, BUFFER);
    memcpy(lent->c, lent->proved, BUFFER);
    if (chance(12))
        lent->length = least - 1;
    else if (chance(12))
        lent->length = random_below((uint32_t)least);
    else if (chance(500))
        lent->length = least;
    else
        lent->length = least + random_below((uint32_t)(LENT_MAX - least + 1));
}

static Buffer lent_to_c(Lent *lent)
{
    return (Buffer){lent->c + MARGIN, lent->length};
}

static void same_lent(const char *what, const Lent *lent)
{
    same_bytes(what, lent->proved, lent->c, BUFFER, MARGIN);
}

/* ---- One call on both sides ---- */

static uint8_t bytes_before[BUFFER]; /* a copy of the bytes that the call is given */

static void start_call(Kind kind, const char *what, uint64_t value, Slice bytes)
{
    call.call = ++calls_made;
    call.kind = kind;
    call.what = what;
    call.value = value;
    call.bytes = bytes.bytes;
    call.length = bytes.length;
    call.output_length = 0;
    memcpy(bytes_before, bytes.bytes, bytes.length);
}

/* For a call that is given a record. */
static void give_record(const Panel *panel, const Record *record)
{
    memcpy(&call.panel, panel, sizeof call.panel);
    memcpy(&call.record, record, sizeof call.record);
}

/* For one that is given an output too. */
static void start_on_record(const Panel *panel, const Record *record)
{
    lend(&output, OUTPUT_MIN);
    lend(&buffer, FRAME_MAX);
    call.output_length = output.length;
    give_record(panel, record);
}

static void end_call(PanelNumber number, uint8_t c_number)
{
    saw_number(c_number);
    same_number("the number", number, c_number);
    if (c_number == 21)
        saw_lapsed(get_due(call.bytes + DEADLINE_AT, width_of(call.bytes)) < call.record.time);
    if (memcmp(bytes_before, call.bytes, call.length) != 0)
        differ("the bytes given were written to");
}

static void end_on_record(PanelAnswer answer, uint8_t c_number, Written written,
                          const Panel *panel, const Record *record)
{
    end_call(answer.number, c_number);
    same_number("the count of log records", answer.count, written.count);
    same_number("the length of the frame", answer.length, written.length);
    same_lent("output", &output);
    same_lent("frame buffer", &buffer);
    if (c_number != 0) {
        same_as_given(panel, record);
        return;
    }
    same_record(panel, record);
    saw_accepted(written.count, record->count);
    saw_floor(call.record.floor, record->floor);
    if (call.kind == RECEIVE || call.kind == CLOCK) /* the others empty the barrier */
        saw_barrier(call.record.barrier, record->barrier);
    for (size_t i = 0; i <= written.count; i++)
        both_log((Slice){output.proved + MARGIN, LOG_RECORD * written.count}, i);
}

void both_fresh(uint8_t own, Panel *panel, Record *record)
{
    static const Panel zeros;
    uint8_t none = 0;

    start_call(FRESH, "own", own, (Slice){&none, 0});
    random_bytes((uint8_t *)panel, sizeof *panel);
    PanelNumber number = panel_fresh(panel, own);
    end_call(number, c_fresh(record, own));
    same_record(panel, record);
    same_bytes("slots of a fresh panel, and what is behind them", (const uint8_t *)panel + FRONT,
               (const uint8_t *)&zeros + FRONT, sizeof zeros - FRONT, 0);
}

/* The frame that a call wrote. */
static void take_frame(Bytes *frame, size_t length)
{
    frame->length = length;
    memcpy(frame->bytes, buffer.c + MARGIN, length);
}

void both_send(Panel *panel, Record *record, Slice payload, uint16_t lifetime, Bytes *frame)
{
    Written written;

    start_call(SEND, "lifetime", lifetime, payload);
    start_on_record(panel, record);
    PanelAnswer answer = panel_send(panel, payload.bytes, payload.length, lifetime,
                                    output.proved + MARGIN, output.length,
                                    buffer.proved + MARGIN, buffer.length);
    uint8_t number = c_send(record, payload, lifetime, lent_to_c(&output),
                            lent_to_c(&buffer), &written);
    end_on_record(answer, number, written, panel, record);
    take_frame(frame, written.length);
}

void both_beacon(Panel *panel, Record *record, Slice payload, Bytes *frame)
{
    Written written;

    start_call(BEACON, "beacon", 0, payload);
    start_on_record(panel, record);
    PanelAnswer answer = panel_beacon(panel, payload.bytes, payload.length,
                                      output.proved + MARGIN, output.length,
                                      buffer.proved + MARGIN, buffer.length);
    uint8_t number = c_beacon(record, payload, lent_to_c(&output), lent_to_c(&buffer),
                              &written);
    end_on_record(answer, number, written, panel, record);
    take_frame(frame, written.length);
}

void both_receive(Panel *panel, Record *record, Slice frame)
{
    Written written;

    start_call(RECEIVE, "receive", 0, frame);
    start_on_record(panel, record);
    PanelAnswer answer = panel_receive(panel, frame.bytes, frame.length,
                                       output.proved + MARGIN, output.length);
    uint8_t number = c_receive(record, frame, lent_to_c(&output), &written);
    end_on_record(answer, number, written, panel, record);
    if (number == 0)
        saw_taken(width_of(frame.bytes) == WIDTH_1, record->count > call.record.count);
}

void both_clock(Panel *panel, Record *record, uint64_t time)
{
    Written written;
    uint8_t none = 0;

    start_call(CLOCK, "reading", time, (Slice){&none, 0});
    start_on_record(panel, record);
    PanelAnswer answer = panel_clock(panel, time, output.proved + MARGIN, output.length);
    uint8_t number = c_clock(record, time, lent_to_c(&output), &written);
    end_on_record(answer, number, written, panel, record);
}

void both_set_back(Panel *panel, Record *record, uint64_t reading)
{
    uint8_t none = 0;

    start_call(SET_BACK, "reading", reading, (Slice){&none, 0});
    give_record(panel, record);
    PanelNumber number = panel_set_back(panel, reading);
    uint8_t c_number = c_set_back(record, reading);
    end_call(number, c_number);
    if (c_number != 0) {
        same_as_given(panel, record);
        return;
    }
    same_but_time(panel, record);
    saw_set_back(call.record.time, record->time);
}

void both_trace(const Panel *panel, const Record *record, Slice frame)
{
    start_call(TRACE, "trace", 0, frame);
    give_record(panel, record);
    PanelTrace given = panel_trace(panel, frame.bytes, frame.length);
    Trace expected = c_trace(record, frame);
    end_call(given.number, expected.number);
    same_number("ready", given.ready, expected.ready);
    same_number("the number of entries visited", given.visited, expected.visited);
    same_as_given(panel, record);
    saw_visits(expected.ready, expected.visited);
}

void both_check(Slice frame)
{
    start_call(CHECK, "check", 0, frame);
    PanelNumber number = panel_frame_check(frame.bytes, frame.length);
    end_call(number, c_frame_check(frame.bytes, frame.length));
}
