/*
 * The causal message module of the dryer panel, written by hand in C.
 * Every call works in place on the record behind its pointer and answers 0 or
 * the number of the refusal; a refused call changes nothing, and its count and
 * length are 0. A trace never changes anything.
 */
#ifndef REFERENCE_H
#define REFERENCE_H

#include <stdbool.h>
#include <stddef.h>
#include <stdint.h>

enum {
    PANELS = 64,
    WAITING_MAX = 32,
    PAYLOAD_MAX = 32,
    FRAME_MIN = 19,   /* of version 1 */
    FRAME_2_MIN = 23, /* of version 2 */
    FRAME_MAX = 567,  /* of version 2 */
    LOG_DEADLINE_AT = 1,
    LOG_LENGTH_AT = 9,
    LOG_PAYLOAD_AT = 10,
    LOG_RECORD = LOG_PAYLOAD_AT + PAYLOAD_MAX,
    OUTPUT_MIN = (WAITING_MAX + 1) * LOG_RECORD
};

typedef struct {
    uint64_t deadline;
    uint8_t source;
    uint8_t length;
    uint64_t mask;
    uint64_t entries[PANELS]; /* packed: one for each bit of the mask, lowest panel first */
    uint8_t payload[PAYLOAD_MAX];
} Message;

typedef struct {
    uint8_t own;
    uint64_t time;
    uint64_t high;
    size_t count;
    uint64_t marks[PANELS];
    uint64_t barrier[PANELS];
    Message waiting[WAITING_MAX]; /* in the order taken */
    uint64_t floor;
} Record;

/* Bytes lent to a call: some that it reads, or a buffer that it writes to. */
typedef struct {
    const uint8_t *bytes;
    size_t length;
} Slice;

typedef struct {
    uint8_t *bytes;
    size_t length;
} Buffer;

/* What a call wrote: log records to the output, a frame to its buffer. */
typedef struct {
    size_t count;
    size_t length;
} Written;

uint8_t c_fresh(Record *record, uint8_t own);
uint8_t c_send(Record *record, Slice payload, uint16_t lifetime, Buffer output,
               Buffer buffer, Written *written);
uint8_t c_beacon(Record *record, Slice payload, Buffer output, Buffer buffer,
                 Written *written);
uint8_t c_receive(Record *record, Slice frame, Buffer output, Written *written);
uint8_t c_clock(Record *record, uint64_t time, Buffer output, Written *written);
uint8_t c_set_back(Record *record, uint64_t reading);

/* What a trace answers: the number of a receive with an output that is long enough, whether the
   message is ready, and how many entries the test for that visited. */
typedef struct {
    uint8_t number;
    bool ready;
    size_t visited;
} Trace;

Trace c_trace(const Record *record, Slice frame);

/* The number of the refusal of reading a frame, or 0. */
uint8_t c_frame_check(const uint8_t *frame, size_t length);

/* Reads a frame of either version into *message, whose content is open if the frame is refused. */
uint8_t c_frame_read(const uint8_t *frame, size_t length, Message *message);

/* Writes the frame of a readable message, of version 2, and gives its length. */
size_t c_frame_write(const Message *message, uint8_t *frame);

/* ---- Readers of a log and of a bundle ---- */

typedef struct {
    const uint8_t *payload;
    uint64_t deadline; /* 0: there is no such record */
    uint8_t source;
    uint8_t length;
} LogRecord;

LogRecord c_log_record(Slice log, size_t index);

typedef struct {
    Slice bytes;
    size_t place;
} Bundle;

typedef enum { BUNDLE_FRAME, BUNDLE_END, BUNDLE_BROKEN } BundleStep;

/* Gives the next frame, and moves the place behind it; at the end and if broken none. */
BundleStep c_bundle_next(Bundle *bundle, Slice *frame);

#endif
