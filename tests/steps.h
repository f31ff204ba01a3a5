/*
 * What the tests of the calls share: a step is a call at one of 64 panels, with all that it is to
 * give. A frame that is received is traced first.
 */
#ifndef STEPS_H
#define STEPS_H

#include "checks.h"
#include "panel.h"

#define LAST 18446744073709551615u /* the last deadline */
#define NEAR_LAST (LAST - 1209600) /* the first time at which it is not too far ahead */
#define HALF ((uint64_t)1 << 63)   /* the first number with the highest bit set */

#define EIGHT "6162636465666768" /* payloads of 8 and of 32 bytes */
#define THIRTY_TWO EIGHT EIGHT EIGHT EIGHT

typedef enum { FRESH, SEND, BEACON, RECEIVE, CLOCK, SET_BACK, TRACE, CALLS } Call;

/* A deadline of a panel. */
typedef struct {
    uint8_t panel;
    uint64_t deadline;
} Due;

/* A record, but for its own number. */
typedef struct {
    uint64_t time;
    uint64_t high;
    Due marks[PANEL_PANELS];                /* up to the first deadline of 0 */
    Due barrier[PANEL_PANELS];              /* up to the first deadline of 0 */
    const char *waiting[PANEL_WAITING_MAX]; /* frames, up to the first null */
    uint64_t floor;
} Record;

/* A call at one of the panels. Bytes are in hexadecimal, as put_bytes reads it. */
typedef struct {
    int line;
    Call call;
    uint8_t at;                             /* the own number of the panel */
    const char *bytes;                      /* the payload or the frame that it is given */
    uint64_t value;                         /* the lifetime or the clock reading */
    bool broken;                            /* whether it is given a record with 33 waiting */
    int output_more;                        /* bytes of the output beyond the least */
    int buffer_more;                        /* bytes of the frame buffer beyond the least */
    PanelNumber number;                     /* what it is to answer */
    const char *log[PANEL_WAITING_MAX + 1]; /* log records without zeros after the payload's end */
    const char *frame;                      /* the frame that it is to write */
    Record record;                          /* the record that it is to give, unless refused */
} Step;

extern Panel panels[PANEL_PANELS];

/* ---- Records ---- */

Panel panel_of(uint8_t own, const Record *record);

/* Puts a frame behind the waiting ones. */
void put_waiting(Panel *panel, const char *frame);

/* Paints what is no part of a record: the slots behind their frames, and the bytes between the
   fields. */
void paint_unused(Panel *panel);

/* ---- What is lent to a call ---- */

enum { MARGIN = 64, MORE_MAX = 100, BYTES_MAX = PANEL_FRAME_MAX + MORE_MAX };

/* What is lent starts behind a margin. Each byte has a content that shows its place. */
extern uint8_t output[MARGIN + PANEL_OUTPUT_MIN + MORE_MAX + MARGIN];
extern uint8_t buffer[MARGIN + PANEL_FRAME_MAX + MORE_MAX + MARGIN];
extern struct Lent {
    uint8_t before[MARGIN];
    Panel panel;
    uint8_t behind[MARGIN];
} lent;

/* Lends a record: all its bytes, those between the fields too. */
void lend(const Panel *panel);
void check_margins(int line);

/* ---- Calls ---- */

/* Counts the number that a call answered, and checks it. */
void same_answer(int line, Call by, PanelNumber given, PanelNumber expected);

/* Makes the call of a step on the lent record, with its bytes, and checks nothing. */
PanelAnswer make(const Step *s, const uint8_t *bytes, size_t length);

/* Makes the call of a step on a copy of a record, and checks all that it gives. */
void call(const Step *s, const Panel *given);

/* The call of a step at its panel; the record there moves on, unless a broken one was given. */
void step(const Step *s);

/* Each call refuses the record with 26. */
void refused_as_broken(int line, const Panel *given);

/* A trace of a frame on a record answers this, and changes nothing. */
void check_trace(int line, const Panel *given, const char *frame, PanelTrace expected);

/* ---- Parts of the tests ---- */

/* Starts one: 64 fresh panels. */
void start(const char *name);

/* Starts one and makes its steps. Where a record is given, panel 3 has that. */
void run_from(const char *name, const Record *record, const Step *steps, size_t count);

#define COUNT(list) (sizeof list / sizeof list[0])
#define RUN(name, steps) run_from(name, NULL, steps, COUNT(steps))
#define RUN_FROM(name, record, steps) run_from(name, record, steps, COUNT(steps))

/* After all: each call answered each number that it can answer, and no other. */
void all_answered(void);

#endif
