/* The readers of both sides on the same bytes. */
#include "both.h"

#include "compare.h"
#include "random.h"
#include "seen.h"

#include <string.h>

/* Compares two places in the same bytes. */
static void same_place(const char *what, const uint8_t *proved, const uint8_t *c)
{
    if (proved != c)
        differ("%s stands %ld bytes behind that in C", what, (long)(proved - c));
}

static void start_reading(Kind kind, const char *what, uint64_t value, Slice bytes)
{
    call.kind = kind;
    call.what = what;
    call.value = value;
    call.bytes = bytes.bytes;
    call.length = bytes.length;
}

void both_log(Slice log, size_t index)
{
    start_reading(LOG, "index", index, log);
    PanelLogRecord read = panel_log_record(log.bytes, log.length, index);
    LogRecord c_read = c_log_record(log, index);

    saw_number(c_read.deadline == 0);
    same_number("the deadline", read.deadline, c_read.deadline);
    same_number("the source", read.source, c_read.source);
    same_number("the length of the payload", read.length, c_read.length);
    same_place("the payload", read.payload, c_read.payload);
}

void both_bundle(Slice bytes, size_t place)
{
    PanelBundle bundle = panel_bundle(bytes.bytes, bytes.length);
    Bundle c_bundle = {bytes, place};
    BundleStep c_step;

    bundle.place = place;
    do {
        const uint8_t *frame;
        size_t length;
        Slice c_frame;

        start_reading(BUNDLE, "place", c_bundle.place, bytes);
        PanelBundleStep step = panel_bundle_next(&bundle, &frame, &length);
        c_step = c_bundle_next(&c_bundle, &c_frame);
        saw_number((uint8_t)c_step);
        same_number("the step", step, c_step);
        same_number("the length of the frame", length, c_frame.length);
        same_place("the frame", frame, c_frame.bytes);
        same_number("the next place", bundle.place, c_bundle.place);
    } while (c_step == BUNDLE_FRAME);
}

/* ---- Random logs and bundles ---- */

/* Random bytes, mostly with deadlines and lengths that a call could have written. */
static void random_log(void)
{
    uint8_t log[4 * LOG_RECORD];
    size_t length = chance(300) ? sizeof log : random_below(sizeof log + 1);

    random_bytes(log, sizeof log);
    for (size_t at = 0; at < sizeof log; at += LOG_RECORD) {
        if (chance(300)) {
            memset(log + at + LOG_DEADLINE_AT, 0, 8);
            if (chance(500)) /* one byte alone is not 0 */
                log[at + LOG_DEADLINE_AT + random_below(8)] = 1;
        }
        if (chance(850))
            log[at + LOG_LENGTH_AT] = (uint8_t)random_below(34);
    }
    both_log((Slice){log, length}, random_below(6));
    both_log((Slice){log, length}, random_64() >> random_below(64));
    both_log((Slice){log, length}, SIZE_MAX / LOG_RECORD + random_below(3));
}

/* A few frames behind their lengths; now and then cut short, or with a wrong length. */
static void random_bundle(const Panel *panel)
{
    static uint8_t bytes[6 * (2 + BYTES_MAX)];
    Bytes frame;
    size_t length = 0;

    for (uint32_t frames = random_below(7); frames > 0; frames--) {
        random_frame(&frame, panel);
        bytes[length] = (uint8_t)(frame.length >> 8);
        bytes[length + 1] = (uint8_t)(chance(30) ? random_64() : frame.length);
        memcpy(bytes + length + 2, frame.bytes, frame.length);
        length += 2 + frame.length;
    }
    if (length > 0 && chance(300))
        length = chance(500) ? length - 1 : random_below((uint32_t)length);
    both_bundle((Slice){bytes, length}, 0);
    both_bundle((Slice){bytes, length}, random_below((uint32_t)length + 4));
    both_bundle((Slice){bytes, length}, SIZE_MAX - random_below(4));
}

void both_readers(const Panel *panel)
{
    random_log();
    random_bundle(panel);
}
