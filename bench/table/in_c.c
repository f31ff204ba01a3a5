/* The side in C, over reference.h. */
#include "loops.h"

static _Alignas(64) Record record;
static _Alignas(64) uint8_t output[OUTPUT_MIN];
static _Alignas(64) uint8_t frame_buffer[FRAME_MAX];

static Worked worked = {.record = &record, .kept = &now.record, .size = sizeof(Record),
                        .front = offsetof(Record, waiting), .message = sizeof(Message),
                        .floor = offsetof(Record, floor)};

/* Reads the log up to the count, and gives how many records it has. */
INLINED size_t read_log(Slice log, size_t count)
{
    for (size_t i = 0; i < count; i++) {
        LogRecord logged = c_log_record(log, i);
        if (logged.deadline == 0)
            return i;
        take(logged.source, logged.deadline, logged.payload, logged.length);
    }
    return count;
}

INLINED uint8_t receive_frame(Slice frame, Written *written)
{
    return c_receive(&record, frame, (Buffer){output, now.output_length}, written);
}

/* Goes through a bundle; each frame of it is received, and its log records are read, or not. */
INLINED uint8_t read_bundle(bool received, size_t *count)
{
    uint8_t last = 0;
    Bundle bundle = {{now.bytes, now.length}, 0};
    Slice frame;

    while (c_bundle_next(&bundle, &frame) == BUNDLE_FRAME) {
        Written written = {1, frame.length};
        uint8_t number = received ? receive_frame(frame, &written) : 0;
        if (number != 0)
            last = number;
        else if (received)
            read_log((Slice){output, sizeof output}, written.count);
        *count += written.count;
    }
    return last;
}

/* The number of a trace, and as its count the entries visited. */
INLINED uint8_t trace_frame(Slice frame, size_t *count)
{
    Trace trace = c_trace(&record, frame);
    caller.ready += trace.ready;
    *count = trace.visited;
    return trace.number;
}

INLINED void make_call(Kind kind)
{
    Written written = {0, 0};
    Slice bytes = {now.bytes, now.length};
    Buffer log_buffer = {output, now.output_length};
    uint8_t number = 0;

    if (kind == CHECK)
        number = c_frame_check(now.bytes, now.length);
    else if (kind == FRESH)
        number = c_fresh(&record, now.own);
    else if (kind == LOG)
        written.count = read_log(bytes, OUTPUT_MIN);
    else if (kind == SEND)
        number = c_send(&record, bytes, now.lifetime, log_buffer,
                        (Buffer){frame_buffer, now.frame_length}, &written);
    else if (kind == BEACON)
        number = c_beacon(&record, bytes, log_buffer,
                          (Buffer){frame_buffer, now.frame_length}, &written);
    else if (kind == TRACE)
        number = trace_frame(bytes, &written.count);
    else if (kind == CLOCK)
        number = c_clock(&record, now.time, log_buffer, &written);
    else if (kind == SET_BACK)
        number = c_set_back(&record, now.time);
    else if (kind == RECEIVE || kind == RECEIVE_AND_READ)
        number = receive_frame(bytes, &written);
    else
        number = read_bundle(kind == RECEIVE_BUNDLE, &written.count);
    look(number, written.count);
    if (kind == RECEIVE_AND_READ)
        read_log((Slice){output, sizeof output}, written.count);
}

LOOPS(c_loops, make_call, &worked)
