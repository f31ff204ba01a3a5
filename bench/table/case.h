/* One call with its record and arguments, to be made by either side. */
#ifndef CASE_H
#define CASE_H

#include "../reference.h"

#include <panel.h>

#include <stdbool.h>

/* What is measured: a call, or what a program does with some of them. */
typedef enum {
    CHECK,
    FRESH,
    LOG,    /* reads a log */
    BUNDLE, /* goes through a bundle */
    TRACE,
    SEND,
    BEACON,
    RECEIVE,
    RECEIVE_AND_READ, /* receives a frame and reads its log records */
    RECEIVE_BUNDLE,   /* does so with each frame of a bundle */
    CLOCK,
    SET_BACK,
    KINDS
} Kind;

#define CHANGES_RECORD(kind) ((kind) >= SEND)

enum { BUNDLE_FRAMES = 8, BYTES_MAX = BUNDLE_FRAMES * (2 + FRAME_MAX) };

typedef struct {
    Kind kind;
    Panel panel;
    Record record; /* the same, made of the panel when the case is started */
    uint8_t own;   /* of a fresh panel */
    uint8_t bytes[BYTES_MAX]; /* a frame, a payload, a bundle, or a log */
    size_t length;            /* of the bytes */
    uint16_t lifetime;
    uint64_t time;
    size_t output_length;
    size_t frame_length; /* of the buffer for the frame */
} Case;

/* The case at hand. */
extern Case now;

/* ---- Messages ---- */

/* A message with a payload that its source shows in. */
Message plain(uint8_t source, uint64_t deadline, uint8_t length);

/* Adds an entry of a higher panel than those before. */
void entry(Message *message, uint8_t source, uint64_t deadline);

/* A usual frame: three entries that are met, 32 bytes of payload. */
Message usual(uint8_t source, uint64_t deadline);

/* The same with one entry that is not met. */
Message early(uint8_t source, uint64_t deadline);

/* A frame of 16 entries: 500 of the panels 47 to 62, and 16 bytes of payload. */
Message middle(uint8_t source, uint64_t deadline);

/* The longest frame: 64 entries of 500, 32 bytes of payload. */
Message longest(uint8_t source, uint64_t deadline);

/* ---- Records: each starts the case anew ---- */

/* Panel 63 at time 10 with marks 40, 41 and 42 and nothing waiting. */
void empty(void);

/*
 * With so many waiting in reverse order, each for the one before it, and the
 * first for a message of panel 62 with deadline 500.
 */
void chain(size_t count);

/* The same, waiting in rising order of deadlines. */
void rising_chain(size_t count);

/*
 * With so many waiting, none for another: the first, with deadline 600, for a
 * message of panel 62 with deadline 500, the others for one of panel 61 with
 * deadline 700.
 */
void one_of(size_t count);

/* With so many middle or longest frames, none ready until time 501 or until 62 has 500. */
void middle_frames(size_t count);
void long_frames(size_t count);

/* ---- Calls; frames are of version 2 ---- */

void to_check(const Message *message);
void to_fresh(uint8_t own);
void to_send(uint8_t length, uint16_t lifetime);
void to_beacon(uint8_t length);
void to_receive(const Message *message);
void to_trace(const Message *message);

/* Makes the frame of the call one of version 1. */
void as_version_1(void);

/* To receive, and to read the log records. */
void to_receive_and_read(const Message *message);

/* A bundle of 8 frames, to go through it or to receive them: those of the panels 50 to 57, with
   deadlines from 2000 on, in one form. */
typedef Message Form(uint8_t source, uint64_t deadline);
void to_bundle(Form form);
void to_receive_bundle(Form form);

/* A log of so many records. */
void to_log(size_t count);

void to_clock(uint64_t time);
void to_set_back(uint64_t time);

/* A chain of so many, and the send that settles it. */
void chain_and_send(size_t count);

#endif
