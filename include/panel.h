/*
 * The causal message module of the dryer panel, for C11 and C++11. Document 01 specifies it.
 *
 * Each panel of a farm keeps a record. panel_fresh makes it; panel_send writes the frame of an own
 * message, panel_beacon that of a status beacon, panel_receive takes a frame that came in,
 * panel_clock sets the time. Each of these four hands messages: it writes their log records, in the
 * order of cause. A message that comes before its cause waits in the record. Two calls are for a
 * technician: panel_set_back lowers the time of a panel whose clock was wrong, and hands nothing;
 * panel_trace changes nothing: it tells what a receive of a frame would answer, and whether its
 * message is ready. panel_log_record reads a log, panel_bundle_next a bundle of frames, and
 * panel_frame_check looks at the bytes of a frame alone.
 *
 * Example, a whole program. It prints "3 7200 OK" and "25 bytes to pass on". Compile it with
 * cc program.c $(pkg-config --cflags --libs panel)   (-lpanel alone may find ncurses' libpanel).
 *
 *     #include <panel.h>
 *     #include <inttypes.h>
 *     #include <stdio.h>
 *
 *     static Panel panel;                        // the record, kept from call to call
 *     static uint8_t output[PANEL_OUTPUT_MIN];   // the log records of one call
 *     static uint8_t frame[PANEL_FRAME_MAX];     // the frame of a send
 *
 *     int main(void)
 *     {
 *         PanelNumber number = panel_fresh(&panel, 3);
 *         if (number != PANEL_ACCEPTED)
 *             return 1;
 *         PanelAnswer sent = panel_send(&panel, (const uint8_t *)"OK", 2, 0, output, sizeof output,
 *                                       frame, sizeof frame);
 *         if (sent.number != PANEL_ACCEPTED) {
 *             puts(panel_number_text(sent.number));
 *             return 1;
 *         }
 *         for (size_t i = 0; i < sent.count; i++) {
 *             PanelLogRecord record = panel_log_record(output, sizeof output, i);
 *             printf("%u %" PRIu64 " %.*s\n", record.source, record.deadline, record.length,
 *                    (const char *)record.payload);
 *         }
 *         printf("%zu bytes to pass on\n", sent.length);
 *         return 0;
 *     }
 *
 * What a caller keeps to. For the rest any argument is allowed, and what is wrong with it is
 * answered with a number.
 * - No pointer is null, also with length 0 (for no bytes point to any byte).
 * - Lengths are true: so many bytes may be read there, or written where the pointer is not const.
 * - The buffers of one call overlap neither each other nor the record.
 * - While a call runs, nobody else writes its record or uses its buffers.
 * - PANEL_STACK_BYTES of stack are free.
 *
 * No call allocates, blocks or has state of its own, and only panel_bundle keeps a pointer: calls
 * on different records may run at the same time. Calls on one record go one after another. The
 * archive needs memcpy and memset, and nothing else.
 *
 * Handing. The barrier of a record has the entries that the next frame carries, one for each panel
 * at most. When a message is handed, each barrier entry that is at most the entry this message
 * carries for the same panel is removed, before the message's own goes in: the barrier entry of its
 * source becomes the larger of itself and its deadline. A panel for which the message carries no
 * entry keeps its barrier entry. So a frame names only messages that no message handed after them
 * names; it may still have PANEL_FRAME_MAX bytes. Nothing else takes barrier entries away but a
 * send, which empties the barrier: no message that waits, is dropped or is refused, and no time.
 * Handing may also raise the floor of the record (see below, setting a clock back).
 *
 * Versions of frames. In a frame of version 1 the deadline and each entry have 4 bytes, in one of
 * version 2 they have 8. Send and beacon write version 2. Receive, trace and frame check read both.
 * A frame of version 1 carries the same message as that of version 2 with the same numbers, and
 * waits in its slot as the latter. So a record keeps no version, and both versions of a message are
 * one message: the one that comes second is refused with 22, as a copy is. A frame of version 1 in
 * a slot, where no call puts one, is no readable frame there (26).
 *
 * Coming from version 0.7. Times and deadlines are uint64_t and may be above 4,294,967,295, so a
 * program keeps them in 64 bits, and prints them with PRIu64; the last is PANEL_DEADLINE_MAX.
 * Output, frame buffer, log record and record are larger: where a program has their sizes by name,
 * nothing else changes. Records and logs that 0.7 saved are not read (PANEL_VERSION), its frames
 * and bundles are.
 *
 * Old and new panels. A panel of version 0.7 or before reads frames of version 1 alone, and sends
 * them: this panel hears it, and it refuses the frames of this panel with 3. One of version 0.6
 * also has no floor, and its clock can't be set back; one of version 0.5 also removes nothing as it
 * hands a message, and so sends longer frames. In all else they are as this one: without a set back
 * the floor makes no difference. They can share a farm: no setting is needed, and the causal order
 * of the logs holds in every mixture, as an old panel neither logs nor names what it refuses. A
 * panel can't go on with the record that an older version left (PANEL_VERSION). Give it a fresh
 * record, with a number that no panel of the farm has had. (Panels before 0.5 differ in more: they
 * take deadlines far ahead.)
 *
 * Deadlines far ahead. A panel with a wrong year would keep dead notes alive for everybody, so a
 * receive refuses, with 32, a deadline above time + PANEL_FARTHEST_AHEAD.
 * - A fresh panel has time 0: until panel_clock has set its time, it refuses every deadline above
 *   1,209,600. Give it the clock reading before the first frame.
 * - A frame that was refused with 32 may be received again, and is taken once the time is near
 *   enough: whoever carries it should not throw it away.
 * - Messages that are waiting or logged already stay, however far ahead they are.
 * - A send's deadline is above high, and so may be further ahead than that. Then the other panels
 *   refuse it until their time is near enough. (So it is with all that a panel sends which has the
 *   high of a wrong year.)
 * - What 32 tells a technician: the clock of the sender, or of a panel whose message the sender
 *   had, is or was ahead; or the clock of this panel is behind, or was never set.
 *
 * Setting a clock back. A clock once set to a wrong year leaves a panel deaf: by that year every
 * message has lapsed (21), and panel_clock does not lower the time. panel_set_back does. So that
 * the log keeps the order of cause, the record has a floor: the largest deadline of a message that
 * comes before one of the log in cause and is not in the log. When a message is handed, the floor
 * rises to the largest of its entries that had lapsed and that the mark of the entry's panel had
 * not reached; it never falls. A deadline has lapsed if it is below the time or at most the floor.
 * After a set back, of which there may be any number:
 * - A message with a deadline of at most the floor, whatever its source, is still refused with 21:
 *   it may be a cause of one that is in the log.
 * - A message with a deadline above the floor is taken as at any panel of this time, and stands in
 *   order, also if it was refused with 21 or dropped before. So pass the panel its frame again.
 * - If the floor is of the wrong year (a message of the log names one of that year that the log
 *   went without), the panel stays deaf until then.
 * - The deadlines of own sends stay above high. If a message of the wrong year is in the log, they
 *   are far ahead, and the other panels refuse them with 32 until their time is near enough; above
 *   PANEL_DEADLINE_MAX the send itself is refused with 24.
 * - No call lowers floor or high. A panel that they leave deaf or unheard needs a fresh record,
 *   with a number that no panel of the farm has had.
 * - Messages that wait stay, and keep their places, however far ahead they are by the lower time.
 * - What 21 tells a technician: a deadline of at most the floor is never taken here; one above it
 *   has lapsed by the time alone, and may be received again once a wrong time is set back.
 *
 * The order of arrival. Frames may come in any order, and any number of times. Where panels sent
 * them, no other call comes between them, and none is refused with 23, a panel ends with the same
 * log records, the same waiting messages and the same time, high, marks, barrier and floor,
 * whatever the order; only the places in log and list may differ. A frame that was refused with 23
 * may be received again, and is taken once fewer messages wait or it is ready, if it has not
 * lapsed.
 *
 * Storing a record. It is plain data without pointers. It may be copied, or saved as its
 * sizeof(Panel) bytes and read back by the same version of this header, or by a later one that says
 * so below (PANEL_VERSION). Go on with the record as the last call left it, never with an older
 * copy, which would hand messages again and give out a deadline twice: so save it, and the log
 * records, before the frame is passed on. A record that is broken, as the words of 26 say, is
 * refused with that number by send, beacon, receive, clock and set back, and a trace answers it.
 * Other damage, as in the time or the floor, they can't see: keep a checksum beside the record.
 *
 * Processor. The archive is for x86-64 with the System V calling convention, as on 64-bit Linux,
 * and for no other: the compiler that comes with the proofs makes code for that one only. The
 * layouts and the passing of arguments below are those of that target, and asserted.
 */
#ifndef PANEL_H
#define PANEL_H

#if !defined(__x86_64__) || !defined(__LP64__) || !defined(__ELF__)
#error "libpanel.a is for x86-64 System V (64-bit Linux), and for no other target"
#endif

#ifndef __cplusplus
#include <stdbool.h>
#endif
#include <stddef.h>
#include <stdint.h>
#include <string.h>

#ifdef __cplusplus
extern "C" {
#endif

/* ---- Version ---- */

/* Major 0, as the layout of the record still changes with coming versions: a record that another
   version saved is not to be read. 0.8 reads none of 0.7 or before: their numbers have 32 bits, and
   those before 0.7 have no floor. Nor does it read their logs, whose log records have 38 bytes. */
#define PANEL_VERSION_MAJOR 0
#define PANEL_VERSION_MINOR 8
#define PANEL_VERSION_PATCH 0
#define PANEL_VERSION "0.8.0"

/* ---- Sizes ---- */

/* The stack that a call takes, at most; tests/stack.c measures it. */
#define PANEL_STACK_BYTES 8192

/* The last deadline: 18,446,744,073,709,551,615. */
#define PANEL_DEADLINE_MAX UINT64_MAX

enum {
    PANEL_PANELS = 64,              /* panels of a farm, numbered from 0 */
    PANEL_WAITING_MAX = 32,         /* messages that may wait at a panel */
    PANEL_PAYLOAD_MAX = 32,         /* bytes of a payload */
    PANEL_LIFETIME_DEFAULT = 7200,  /* seconds that a lifetime of 0 means */
    PANEL_LIFETIME_BEACON = 1200,   /* seconds of a beacon's lifetime */
    PANEL_FARTHEST_AHEAD = 1209600, /* seconds that a received deadline may be ahead of the time:
                                       14 days */
    PANEL_OUTPUT_MIN = 1386,        /* bytes of the output at least: 33 log records */
    PANEL_SLOT_BYTES = 569,         /* a slot: the length of a frame in 16 bits, then the frame */
    PANEL_SLOTS_BYTES = 18208       /* 32 slots */
};

/* A frame, and where its parts stand. Numbers have the highest byte first. A part of version 1 that
   stands elsewhere, or has another size, has a name with 1. */
enum {
    PANEL_FRAME_MIN = 19,         /* bytes of the shortest frame, of version 1 */
    PANEL_FRAME_1_MAX = 307,      /* bytes of the longest of version 1 */
    PANEL_FRAME_2_MIN = 23,       /* bytes of the shortest of version 2 */
    PANEL_FRAME_MAX = 567,        /* bytes of the longest, and of the frame buffer at least */
    PANEL_FRAME_VERSION_AT = 3,   /* 2 bytes, behind the mark: 1 or 2 */
    PANEL_FRAME_SOURCE_AT = 5,    /* 1 byte */
    PANEL_FRAME_DEADLINE_AT = 6,  /* 8 bytes, in version 1 4 bytes */
    PANEL_FRAME_MASK_AT = 14,     /* 8 bytes */
    PANEL_FRAME_1_MASK_AT = 10,   /* 8 bytes */
    PANEL_FRAME_ENTRIES_AT = 22,  /* 8 bytes each; then 1 byte, the length of the payload, which
                                     stands behind it */
    PANEL_FRAME_1_ENTRIES_AT = 18 /* 4 bytes each; then the same */
};

/* A log record, and where its parts stand, as in a frame. */
enum {
    PANEL_LOG_RECORD = 42,     /* bytes of a log record */
    PANEL_LOG_SOURCE_AT = 0,   /* 1 byte */
    PANEL_LOG_DEADLINE_AT = 1, /* 8 bytes */
    PANEL_LOG_LENGTH_AT = 9,   /* 1 byte, the length of the payload */
    PANEL_LOG_PAYLOAD_AT = 10  /* 32 bytes, zeros after the payload's end */
};

/* ---- Numbers ---- */

/* What a call answers. A refusal changes nothing: every byte of the record and of the buffers is as
   it was, and count and length are 0. (Fresh alone makes a record with its refusal.) */
typedef enum PanelNumber {
    PANEL_ACCEPTED = 0,

    /* because of the input */
    PANEL_REFUSED_FRAME_SHORT = 1,          /* fewer than 19 bytes, or in version 2 fewer than 23,
                                               or too few for the entries and the length byte, or
                                               too few for the payload */
    PANEL_REFUSED_FRAME_MARK = 2,           /* mark: not hexadecimal 44 52 59 */
    PANEL_REFUSED_FRAME_VERSION = 3,        /* version: not 1 or 2 */
    PANEL_REFUSED_FRAME_SOURCE = 4,         /* source: not 0 to 63 */
    PANEL_REFUSED_FRAME_DEADLINE = 5,       /* deadline 0 */
    PANEL_REFUSED_FRAME_ENTRY = 6,          /* entries: not each 1 or more and below the deadline */
    PANEL_REFUSED_FRAME_PAYLOAD_LENGTH = 7, /* payload length: not 0 to 32 */
    PANEL_REFUSED_FRAME_LEFT_OVER = 8,      /* bytes left over */
    PANEL_REFUSED_PAYLOAD_LONG = 9,         /* payload to send longer than 32 */
    PANEL_REFUSED_BUFFER_SHORT = 10,        /* output under 1,386 bytes, or the frame buffer of a
                                               send under 567 */
    PANEL_REFUSED_PANEL_NUMBER = 11,        /* a panel number above 63 asked of a fresh panel */

    /* because of the state; 32 is looked at directly after 21 */
    PANEL_REFUSED_OWN_SOURCE = 20,        /* the frame's source is the own number */
    PANEL_REFUSED_LAPSED = 21,            /* the message has lapsed: its deadline is below the time
                                             or at most the floor */
    PANEL_REFUSED_HAD_ALREADY = 22,       /* its deadline is at most its source's mark, or it is
                                             waiting already */
    PANEL_REFUSED_LIST_FULL = 23,         /* 32 are waiting and this one is not ready */
    PANEL_REFUSED_DEADLINE_TOO_HIGH = 24, /* the deadline of a send would pass
                                             18,446,744,073,709,551,615 */
    PANEL_REFUSED_CLOCK_BACK = 25,        /* the clock reading is below the panel's time */
    PANEL_REFUSED_RECORD_BROKEN = 26,     /* the record has an own number above 63, a mark or
                                             barrier entry above high, over 32 waiting, or a
                                             waiting message that no readable frame carries */
    PANEL_REFUSED_TOO_FAR_AHEAD = 32      /* its deadline is above time + 1,209,600 */
} PanelNumber;

/* Lets the compiler warn of an answer that is not looked at, and of a pointer that is null. */
#ifdef __GNUC__
#define PANEL_ANSWER __attribute__((warn_unused_result))
#define PANEL_NOT_NULL __attribute__((nonnull))
#else
#define PANEL_ANSWER
#define PANEL_NOT_NULL
#endif

/* The words of a number, as they stand beside it above, for a screen or a trace. */
PANEL_ANSWER
static inline const char *panel_number_text(PanelNumber number);

/* ---- The record ---- */

/* Any field may be read; only the calls change it. Times and deadlines are whole seconds. */
typedef struct Panel {
    uint8_t own;                      /* own number */
    uint64_t time;                    /* the last clock reading that was accepted, or the lower
                                         reading of a set back since; at first 0 */
    uint64_t high;                    /* the largest deadline in the log, or 0 */
    size_t count;                     /* how many messages are waiting */
    uint64_t marks[PANEL_PANELS];     /* the largest deadline in the log from each source, or 0 */
    uint64_t barrier[PANEL_PANELS];   /* the entries that the next frame carries, or 0 */
    uint8_t slots[PANEL_SLOTS_BYTES]; /* the frames of the waiting messages, of version 2, in the
                                         order taken; what stands behind them is no part of the
                                         record */
    uint64_t floor;                   /* the largest deadline of a message before one of the log
                                         in cause and not in it, or 0 */
} Panel;

/*
 * Makes a fresh panel: time 0, high 0, all marks and barrier entries 0, nothing waiting, floor 0.
 * It sets every byte of the record, those between the fields too, whatever was there. Give it a
 * clock reading before the first frame is received (see above, deadlines far ahead).
 * Refused with 11; the record is then a fresh panel 0.
 */
PANEL_ANSWER PANEL_NOT_NULL
static inline PanelNumber panel_fresh(Panel *panel, uint8_t number);

/* ---- Send, beacon, receive and clock ---- */

typedef struct PanelAnswer {
    size_t count;       /* how many log records stand in the output */
    size_t length;      /* how many bytes of a frame stand in the frame buffer, 0 but for a send
                           or a beacon */
    PanelNumber number; /* 0, or that of the refusal */
} PanelAnswer;

/*
 * Sends a payload of 0 to 32 bytes. The deadline of the message is the larger of time + lifetime
 * (0 means PANEL_LIFETIME_DEFAULT) and high + 1, however far ahead that is. Its frame stands at the
 * start of the frame buffer, `length` bytes of version 2, and carries the barrier entries as they
 * were, each in 8 bytes. Then the barrier is emptied, the own message is handed, and the panel
 * settles: `count` log records, 1 to 33, stand one after another from the start of the output, the
 * own message first. Bytes behind the frame and behind the log records keep their content.
 * Refused with the first of 26, 10, 9, 24 that applies.
 */
PANEL_ANSWER PANEL_NOT_NULL
static inline PanelAnswer panel_send(Panel *panel, const uint8_t *payload, size_t payload_length,
                                     uint16_t lifetime, uint8_t *output, size_t output_length,
                                     uint8_t *frame, size_t frame_length);

/*
 * Sends a status beacon, such as "fan 2 runs": in everything as panel_send with lifetime
 * PANEL_LIFETIME_BEACON, whatever a lifetime of 0 means. Its deadline, as that of every send, is
 * above the largest in the log: after a note with a longer lifetime, sent or received, the beacon
 * lapses just after that note, not PANEL_LIFETIME_BEACON seconds from now.
 * Refused with the first of 26, 10, 9, 24 that applies.
 */
PANEL_ANSWER PANEL_NOT_NULL
static inline PanelAnswer panel_beacon(Panel *panel, const uint8_t *payload, size_t payload_length,
                                       uint8_t *output, size_t output_length, uint8_t *frame,
                                       size_t frame_length);

/*
 * Receives a frame of either version, whole or damaged, of any length. Its message is handed if it
 * is ready, that is if for each entry the panel has had that message or the entry has lapsed;
 * otherwise it waits.
 * Then the panel settles: `count` log records, 0 to 33, stand one after another from the start of
 * the output, and the bytes behind them keep their content.
 * Refused with the first of 26, 10, 1 to 8 as by panel_frame_check, 20, 21, 32, 22, 23 that
 * applies. A frame that was refused with 32 may be received again when the time is nearer. One that
 * was refused with 21 may be received again after a set back, if its deadline is above the floor.
 */
PANEL_ANSWER PANEL_NOT_NULL
static inline PanelAnswer panel_receive(Panel *panel, const uint8_t *frame, size_t frame_length,
                                        uint8_t *output, size_t output_length);

/*
 * Sets the time. Waiting messages that have lapsed by then, as their deadline is below the time or
 * at most the floor, are dropped and not handed; after a set back such a message may be received
 * again. Then the panel settles, as entries that have lapsed are waited for no longer: `count` log
 * records, 0 to 32, stand one after another from the start of the output, and the bytes behind them
 * keep their content.
 * Refused with the first of 26, 10, 25 that applies. The same time again is accepted. A time that
 * is wrong and above the right one is lowered by panel_set_back.
 */
PANEL_ANSWER PANEL_NOT_NULL
static inline PanelAnswer panel_clock(Panel *panel, uint64_t time, uint8_t *output,
                                      size_t output_length);

/* ---- Setting a clock back ---- */

/*
 * Lowers the time: it becomes the lower of its own and the reading. This is the service call of a
 * technician who finds a panel deaf, as its clock was once set to a wrong year: it refuses with 21
 * whatever comes (see above). The reading is the right time; later ones go to panel_clock as ever.
 * A reading above the time leaves the time as it is, and is accepted too.
 * Nothing is handed and nothing is dropped. Every other byte of the record is as it was: the floor
 * stays, and so do high, marks, barrier and waiting messages.
 * Refused with 26.
 */
PANEL_ANSWER PANEL_NOT_NULL
static inline PanelNumber panel_set_back(Panel *panel, uint64_t reading);

/* ---- Trace ---- */

typedef struct PanelTrace {
    PanelNumber number; /* 0, or that of the refusal that a receive would answer */
    bool ready;         /* whether the message is ready: each of its entries is met */
    size_t visited;     /* how many entries the test for ready visited, 0 to 64 */
} PanelTrace;

/*
 * Tells what would become of a frame of either version, whole or damaged, of any length. It changes
 * nothing.
 * The number is the first of 26, 1 to 8 as by panel_frame_check, 20, 21, 32, 22, 23 that applies:
 * the number that panel_receive would answer with this frame and an output of PANEL_OUTPUT_MIN
 * bytes.
 * An entry is met if the mark of its panel is at least the entry, or if the entry has lapsed. The
 * test for ready goes from one set bit of the frame's mask to the next, lowest panel first, up to
 * the first entry that is not met, that one included, or through all. So where the message is not
 * ready, the entry at which it stopped is the visited-th set bit of the frame's mask (from
 * PANEL_FRAME_MASK_AT or PANEL_FRAME_1_MASK_AT on), counted from the lowest: of that panel the
 * record lacks this message, and has had no later one.
 * `ready` and `visited` are answered whatever the number is, with 26 too, by the marks, the time
 * and the floor of the record. For bytes that panel_frame_check turns down they are false and 0.
 */
PANEL_ANSWER PANEL_NOT_NULL
static inline PanelTrace panel_trace(const Panel *panel, const uint8_t *frame, size_t frame_length);

/* ---- Frames, logs and bundles ---- */

/*
 * 0 for the bytes of a frame of version 1 or 2, or the number of the first check that applies:
 * fewer than 19 bytes (1), mark (2), version neither 1 nor 2 (3), in version 2 fewer than 23 bytes
 * (1), source (4), deadline 0 (5), too few bytes for the entries and the length byte (1), entries
 * (6), payload length (7), too few bytes for the payload (1), bytes left over (8).
 */
PANEL_ANSWER PANEL_NOT_NULL
static inline PanelNumber panel_frame_check(const uint8_t *frame, size_t frame_length);

typedef struct PanelLogRecord {
    const uint8_t *payload; /* in the log */
    uint64_t deadline;      /* 0: there is no such record */
    uint8_t source;
    uint8_t length;         /* bytes of the payload, 0 to 32 */
} PanelLogRecord;

/*
 * Reads the log record of that index, from 0, in a log: the output of a call, or the records of
 * several calls one after another. Deadline 0 says that no whole record has that index, or that
 * its bytes are none that a call wrote (deadline 0, or a length above 32); source and length are
 * then 0, and payload is log.
 */
PANEL_ANSWER PANEL_NOT_NULL
static inline PanelLogRecord panel_log_record(const uint8_t *log, size_t log_length, size_t index);

/* A bundle and the place of its reader. A bundle is a run of frames, each behind its length in 16
   bits, the highest byte first. */
typedef struct PanelBundle {
    const uint8_t *bytes;
    size_t length;
    size_t place;
} PanelBundle;

typedef enum PanelBundleStep {
    PANEL_BUNDLE_FRAME = 0, /* a frame, which may be damaged, and the place moves behind it */
    PANEL_BUNDLE_END = 1,   /* no byte is left */
    PANEL_BUNDLE_BROKEN = 2 /* fewer bytes left than a length or its frame needs */
} PanelBundleStep;

/* A reader at the start of a bundle. It keeps the pointer: the bytes have to outlive it. */
PANEL_ANSWER PANEL_NOT_NULL
static inline PanelBundle panel_bundle(const uint8_t *bytes, size_t length);

/*
 * Points to the next frame, as the part of the bundle that it occupies. With end and broken the
 * part is empty and the place stays: after broken it stays broken. A place past the end is broken.
 */
PANEL_ANSWER PANEL_NOT_NULL
static inline PanelBundleStep panel_bundle_next(PanelBundle *bundle, const uint8_t **frame,
                                                size_t *frame_length);

/* ==== For this header alone: the archive's functions. They are not to be called. ==== */

/* They take a record in its parts: marks and barrier are PANEL_PANELS numbers, slots
   PANEL_SLOTS_BYTES bytes. */

typedef struct PanelPartsAnswer {
    size_t count;
    size_t length;
    uint8_t number;
} PanelPartsAnswer;

typedef struct PanelTraceParts {
    size_t visited;
    bool ready;
    uint8_t number;
} PanelTraceParts;

typedef struct PanelLogParts {
    uint64_t deadline;
    uint8_t source;
    uint8_t length;
} PanelLogParts;

typedef struct PanelBundleParts {
    size_t start;
    size_t length;
    size_t next;
    uint8_t kind;
} PanelBundleParts;

PANEL_NOT_NULL
uint8_t panel_fresh_parts(uint8_t number, uint8_t *own, uint64_t *time, uint64_t *high,
                          size_t *count, uint64_t *marks, uint64_t *barrier, uint8_t *slots,
                          uint64_t *floor);

PANEL_NOT_NULL
PanelPartsAnswer panel_send_parts(uint8_t own, uint64_t time, uint64_t *high, size_t *count,
                                  uint64_t *marks, uint64_t *barrier, uint8_t *slots,
                                  uint64_t *floor, const uint8_t *payload, size_t payload_length,
                                  uint16_t lifetime, uint8_t *output, size_t output_length,
                                  uint8_t *frame, size_t frame_length);

PANEL_NOT_NULL
PanelPartsAnswer panel_beacon_parts(uint8_t own, uint64_t time, uint64_t *high, size_t *count,
                                    uint64_t *marks, uint64_t *barrier, uint8_t *slots,
                                    uint64_t *floor, const uint8_t *payload, size_t payload_length,
                                    uint8_t *output, size_t output_length, uint8_t *frame,
                                    size_t frame_length);

PANEL_NOT_NULL
PanelPartsAnswer panel_receive_parts(uint8_t own, uint64_t time, uint64_t *high, size_t *count,
                                     uint64_t *marks, uint64_t *barrier, uint8_t *slots,
                                     uint64_t *floor, const uint8_t *frame, size_t frame_length,
                                     uint8_t *output, size_t output_length);

PANEL_NOT_NULL
PanelPartsAnswer panel_clock_parts(uint8_t own, uint64_t *time, uint64_t *high, size_t *count,
                                   uint64_t *marks, uint64_t *barrier, uint8_t *slots,
                                   uint64_t *floor, uint64_t reading, uint8_t *output,
                                   size_t output_length);

PANEL_NOT_NULL
uint8_t panel_set_back_parts(uint8_t own, uint64_t *time, uint64_t high, size_t count,
                             const uint64_t *marks, const uint64_t *barrier, const uint8_t *slots,
                             uint64_t floor, uint64_t reading);

PANEL_NOT_NULL
PanelTraceParts panel_trace_parts(uint8_t own, uint64_t time, uint64_t high, size_t count,
                                  const uint64_t *marks, const uint64_t *barrier,
                                  const uint8_t *slots, uint64_t floor, const uint8_t *frame,
                                  size_t frame_length);

PANEL_NOT_NULL
uint8_t frame_check(const uint8_t *frame, size_t length);

PANEL_NOT_NULL
PanelLogParts panel_log_fields(const uint8_t *log, size_t length, size_t index);

PANEL_NOT_NULL
PanelBundleParts panel_bundle_step(const uint8_t *bundle, size_t length, size_t place);

/* ---- The layouts ---- */

#ifdef __cplusplus
#define PANEL_ASSERT(claim, words) static_assert(claim, words)
#define PANEL_SIZE_OF(type, field) sizeof(type::field)
#else
#define PANEL_ASSERT(claim, words) _Static_assert(claim, words)
#define PANEL_SIZE_OF(type, field) sizeof(((type *)0)->field)
#endif

#define PANEL_FIELD(type, field, place, size)                                   \
    PANEL_ASSERT(offsetof(type, field) == place, "place of " #type "." #field); \
    PANEL_ASSERT(PANEL_SIZE_OF(type, field) == size, "size of " #type "." #field)

PANEL_FIELD(Panel, own, 0, 1);
PANEL_FIELD(Panel, time, 8, 8);
PANEL_FIELD(Panel, high, 16, 8);
PANEL_FIELD(Panel, count, 24, 8);
PANEL_FIELD(Panel, marks, 32, 512);
PANEL_FIELD(Panel, barrier, 544, 512);
PANEL_FIELD(Panel, slots, 1056, PANEL_SLOTS_BYTES);
PANEL_FIELD(Panel, floor, 19264, 8);
PANEL_ASSERT(sizeof(Panel) == 19272, "size of Panel");

PANEL_FIELD(PanelPartsAnswer, count, 0, 8);
PANEL_FIELD(PanelPartsAnswer, length, 8, 8);
PANEL_FIELD(PanelPartsAnswer, number, 16, 1);
PANEL_ASSERT(sizeof(PanelPartsAnswer) == 24, "size of PanelPartsAnswer");

PANEL_FIELD(PanelTraceParts, visited, 0, 8);
PANEL_FIELD(PanelTraceParts, ready, 8, 1);
PANEL_FIELD(PanelTraceParts, number, 9, 1);
PANEL_ASSERT(sizeof(PanelTraceParts) == 16, "size of PanelTraceParts");

PANEL_FIELD(PanelLogParts, deadline, 0, 8);
PANEL_FIELD(PanelLogParts, source, 8, 1);
PANEL_FIELD(PanelLogParts, length, 9, 1);
PANEL_ASSERT(sizeof(PanelLogParts) == 16, "size of PanelLogParts");

PANEL_FIELD(PanelBundleParts, start, 0, 8);
PANEL_FIELD(PanelBundleParts, length, 8, 8);
PANEL_FIELD(PanelBundleParts, next, 16, 8);
PANEL_FIELD(PanelBundleParts, kind, 24, 1);
PANEL_ASSERT(sizeof(PanelBundleParts) == 32, "size of PanelBundleParts");

PANEL_ASSERT(PANEL_LOG_PAYLOAD_AT + PANEL_PAYLOAD_MAX == PANEL_LOG_RECORD, "log record");
PANEL_ASSERT((PANEL_WAITING_MAX + 1) * PANEL_LOG_RECORD == PANEL_OUTPUT_MIN, "output");
PANEL_ASSERT(PANEL_FRAME_1_ENTRIES_AT + 1 == PANEL_FRAME_MIN, "shortest frame");
PANEL_ASSERT(PANEL_FRAME_MIN + PANEL_PANELS * 4 + PANEL_PAYLOAD_MAX == PANEL_FRAME_1_MAX,
             "longest frame of version 1");
PANEL_ASSERT(PANEL_FRAME_ENTRIES_AT + 1 == PANEL_FRAME_2_MIN, "shortest frame of version 2");
PANEL_ASSERT(PANEL_FRAME_2_MIN + PANEL_PANELS * 8 + PANEL_PAYLOAD_MAX == PANEL_FRAME_MAX,
             "longest frame");
PANEL_ASSERT(2 + PANEL_FRAME_MAX == PANEL_SLOT_BYTES, "slot");
PANEL_ASSERT(PANEL_WAITING_MAX * PANEL_SLOT_BYTES == PANEL_SLOTS_BYTES, "slots");

#undef PANEL_FIELD
#undef PANEL_SIZE_OF
#undef PANEL_ASSERT
#undef PANEL_ANSWER
#undef PANEL_NOT_NULL

/* ---- The calls over these functions ---- */

static inline const char *panel_number_text(PanelNumber number)
{
    switch (number) {
    case PANEL_ACCEPTED: return "accepted";
    case PANEL_REFUSED_FRAME_SHORT:
        return "fewer than 19 bytes, or in version 2 fewer than 23, or too few for the entries and "
               "the length byte, or too few for the payload";
    case PANEL_REFUSED_FRAME_MARK: return "mark: not hexadecimal 44 52 59";
    case PANEL_REFUSED_FRAME_VERSION: return "version: not 1 or 2";
    case PANEL_REFUSED_FRAME_SOURCE: return "source: not 0 to 63";
    case PANEL_REFUSED_FRAME_DEADLINE: return "deadline 0";
    case PANEL_REFUSED_FRAME_ENTRY: return "entries: not each 1 or more and below the deadline";
    case PANEL_REFUSED_FRAME_PAYLOAD_LENGTH: return "payload length: not 0 to 32";
    case PANEL_REFUSED_FRAME_LEFT_OVER: return "bytes left over";
    case PANEL_REFUSED_PAYLOAD_LONG: return "payload to send longer than 32";
    case PANEL_REFUSED_BUFFER_SHORT:
        return "output under 1,386 bytes, or the frame buffer of a send under 567";
    case PANEL_REFUSED_PANEL_NUMBER: return "a panel number above 63 asked of a fresh panel";
    case PANEL_REFUSED_OWN_SOURCE: return "the frame's source is the own number";
    case PANEL_REFUSED_LAPSED:
        return "the message has lapsed: its deadline is below the time or at most the floor";
    case PANEL_REFUSED_HAD_ALREADY:
        return "its deadline is at most its source's mark, or it is waiting already";
    case PANEL_REFUSED_LIST_FULL: return "32 are waiting and this one is not ready";
    case PANEL_REFUSED_DEADLINE_TOO_HIGH:
        return "the deadline of a send would pass 18,446,744,073,709,551,615";
    case PANEL_REFUSED_CLOCK_BACK: return "the clock reading is below the panel's time";
    case PANEL_REFUSED_RECORD_BROKEN:
        return "the record has an own number above 63, a mark or barrier entry above high, over 32 "
               "waiting, or a waiting message that no readable frame carries";
    case PANEL_REFUSED_TOO_FAR_AHEAD: return "its deadline is above time + 1,209,600";
    }
    return "no number of this header";
}

static inline PanelNumber panel_fresh(Panel *panel, uint8_t number)
{
    memset(panel, 0, offsetof(Panel, time)); /* for the bytes between the first two fields */
    return (PanelNumber)panel_fresh_parts(number, &panel->own, &panel->time, &panel->high,
                                          &panel->count, panel->marks, panel->barrier,
                                          panel->slots, &panel->floor);
}

static inline PanelAnswer panel_answer_of(PanelPartsAnswer parts)
{
    PanelAnswer answer = {parts.count, parts.length, (PanelNumber)parts.number};
    return answer;
}

static inline PanelAnswer panel_send(Panel *panel, const uint8_t *payload, size_t payload_length,
                                     uint16_t lifetime, uint8_t *output, size_t output_length,
                                     uint8_t *frame, size_t frame_length)
{
    return panel_answer_of(panel_send_parts(panel->own, panel->time, &panel->high, &panel->count,
                                            panel->marks, panel->barrier, panel->slots,
                                            &panel->floor, payload, payload_length, lifetime,
                                            output, output_length, frame, frame_length));
}

static inline PanelAnswer panel_beacon(Panel *panel, const uint8_t *payload, size_t payload_length,
                                       uint8_t *output, size_t output_length, uint8_t *frame,
                                       size_t frame_length)
{
    return panel_answer_of(panel_beacon_parts(panel->own, panel->time, &panel->high, &panel->count,
                                              panel->marks, panel->barrier, panel->slots,
                                              &panel->floor, payload, payload_length, output,
                                              output_length, frame, frame_length));
}

static inline PanelAnswer panel_receive(Panel *panel, const uint8_t *frame, size_t frame_length,
                                        uint8_t *output, size_t output_length)
{
    return panel_answer_of(panel_receive_parts(panel->own, panel->time, &panel->high, &panel->count,
                                               panel->marks, panel->barrier, panel->slots,
                                               &panel->floor, frame, frame_length, output,
                                               output_length));
}

static inline PanelAnswer panel_clock(Panel *panel, uint64_t time, uint8_t *output,
                                      size_t output_length)
{
    return panel_answer_of(panel_clock_parts(panel->own, &panel->time, &panel->high, &panel->count,
                                             panel->marks, panel->barrier, panel->slots,
                                             &panel->floor, time, output, output_length));
}

static inline PanelNumber panel_set_back(Panel *panel, uint64_t reading)
{
    return (PanelNumber)panel_set_back_parts(panel->own, &panel->time, panel->high, panel->count,
                                             panel->marks, panel->barrier, panel->slots,
                                             panel->floor, reading);
}

static inline PanelTrace panel_trace(const Panel *panel, const uint8_t *frame, size_t frame_length)
{
    PanelTraceParts parts = panel_trace_parts(panel->own, panel->time, panel->high, panel->count,
                                              panel->marks, panel->barrier, panel->slots,
                                              panel->floor, frame, frame_length);
    PanelTrace trace = {(PanelNumber)parts.number, parts.ready, parts.visited};
    return trace;
}

static inline PanelNumber panel_frame_check(const uint8_t *frame, size_t frame_length)
{
    return (PanelNumber)frame_check(frame, frame_length);
}

static inline PanelLogRecord panel_log_record(const uint8_t *log, size_t log_length, size_t index)
{
    PanelLogParts parts = panel_log_fields(log, log_length, index);
    PanelLogRecord record = {log, 0, 0, 0};
    if (parts.deadline != 0) {
        record.payload = log + index * PANEL_LOG_RECORD + PANEL_LOG_PAYLOAD_AT;
        record.deadline = parts.deadline;
        record.source = parts.source;
        record.length = parts.length;
    }
    return record;
}

static inline PanelBundle panel_bundle(const uint8_t *bytes, size_t length)
{
    PanelBundle bundle = {bytes, length, 0};
    return bundle;
}

static inline PanelBundleStep panel_bundle_next(PanelBundle *bundle, const uint8_t **frame,
                                                size_t *frame_length)
{
    PanelBundleParts parts = panel_bundle_step(bundle->bytes, bundle->length, bundle->place);
    *frame = bundle->bytes + parts.start;
    *frame_length = parts.length;
    bundle->place = parts.next;
    return (PanelBundleStep)parts.kind;
}

#ifdef __cplusplus
}
#endif

#endif
