/* The proved side, written as a program writes it that includes panel.h. */
#include "loops.h"

static _Alignas(64) Panel panel;
static _Alignas(64) uint8_t output[PANEL_OUTPUT_MIN];
static _Alignas(64) uint8_t frame_buffer[PANEL_FRAME_MAX];

static Worked worked = {.record = &panel, .kept = &now.panel, .size = sizeof(Panel),
                        .front = offsetof(Panel, slots), .message = PANEL_SLOT_BYTES,
                        .floor = offsetof(Panel, floor)};

/* Reads the log up to the count, and gives how many records it has. */
INLINED size_t read_log(const uint8_t *log, size_t log_length, size_t count)
{
    for (size_t i = 0; i < count; i++) {
        PanelLogRecord record = panel_log_record(log, log_length, i);
        if (record.deadline == 0)
            return i;
        take(record.source, record.deadline, record.payload, record.length);
    }
    return count;
}

INLINED PanelAnswer receive_frame(const uint8_t *frame, size_t length)
{
    return panel_receive(&panel, frame, length, output, now.output_length);
}

/* Goes through a bundle; each frame of it is received, and its log records are read, or not. */
INLINED PanelAnswer read_bundle(bool received)
{
    PanelAnswer all = {0, 0, PANEL_ACCEPTED};
    PanelBundle bundle = panel_bundle(now.bytes, now.length);
    const uint8_t *frame;
    size_t length;

    while (panel_bundle_next(&bundle, &frame, &length) == PANEL_BUNDLE_FRAME) {
        PanelAnswer given = {1, length, PANEL_ACCEPTED};
        if (received)
            given = receive_frame(frame, length);
        if (given.number != PANEL_ACCEPTED)
            all.number = given.number;
        else if (received)
            read_log(output, sizeof output, given.count);
        all.count += given.count;
    }
    return all;
}

/* The number of a trace, and as its count the entries visited. */
INLINED PanelAnswer trace_frame(const uint8_t *frame, size_t length)
{
    PanelTrace trace = panel_trace(&panel, frame, length);
    caller.ready += trace.ready;
    return (PanelAnswer){trace.visited, 0, trace.number};
}

INLINED void make_call(Kind kind)
{
    PanelAnswer given = {0, 0, PANEL_ACCEPTED};

    if (kind == CHECK)
        given.number = panel_frame_check(now.bytes, now.length);
    else if (kind == FRESH)
        given.number = panel_fresh(&panel, now.own);
    else if (kind == LOG)
        given.count = read_log(now.bytes, now.length, PANEL_OUTPUT_MIN);
    else if (kind == SEND)
        given = panel_send(&panel, now.bytes, now.length, now.lifetime, output,
                           now.output_length, frame_buffer, now.frame_length);
    else if (kind == BEACON)
        given = panel_beacon(&panel, now.bytes, now.length, output, now.output_length,
                             frame_buffer, now.frame_length);
    else if (kind == TRACE)
        given = trace_frame(now.bytes, now.length);
    else if (kind == CLOCK)
        given = panel_clock(&panel, now.time, output, now.output_length);
    else if (kind == SET_BACK)
        given.number = panel_set_back(&panel, now.time);
    else if (kind == RECEIVE || kind == RECEIVE_AND_READ)
        given = receive_frame(now.bytes, now.length);
    else
        given = read_bundle(kind == RECEIVE_BUNDLE);
    look((uint8_t)given.number, given.count);
    if (kind == RECEIVE_AND_READ)
        read_log(output, sizeof output, given.count);
}

LOOPS(proved_loops, make_call, &worked)
