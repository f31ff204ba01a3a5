/* The readers of logs and bundles as a C program sees them, the texts and the version. */
#include "steps.h"

#include <stdio.h>
#include <string.h>

/* ---- Logs ---- */

/* Reads the record of an index. It is to be none if the payload, in hexadecimal, is null. */
static void check_log(int line, const uint8_t *log, size_t length, size_t index, uint8_t source,
                      uint64_t deadline, const char *payload)
{
    uint8_t *copy = copy_of(log, length);
    PanelLogRecord record = panel_log_record(copy, length, index);
    uint8_t expected[PANEL_PAYLOAD_MAX] = {0};
    size_t expected_length = payload != NULL ? put_bytes(expected, payload) : 0;
    size_t place = payload != NULL ? index * PANEL_LOG_RECORD + PANEL_LOG_PAYLOAD_AT : 0;

    same_number(line, "source", record.source, source);
    same_number(line, "deadline", record.deadline, deadline);
    same_number(line, "length of the payload", record.length, expected_length);
    same_number(line, "place of the payload", (uintptr_t)record.payload - (uintptr_t)copy, place);
    if (record.length == expected_length)
        same_bytes(line, "payload", copy + place, expected, expected_length, 0);
    same_bytes(line, "log", copy, log, length, 0);
    free_copy(copy);
}

static void check_no_record(int line, const uint8_t *log, size_t length, size_t index)
{
    check_log(line, log, length, index, 0, 0, NULL);
}

static void accepted(int line, PanelNumber number)
{
    same_number(line, "number", number, PANEL_ACCEPTED);
}

/* Panel 1 sends three messages, and panel 2 gets the last of them first. */
static size_t write_log(uint8_t output[PANEL_OUTPUT_MIN])
{
    static const char *const payloads[] = {THIRTY_TWO, "", "6f6b"};
    static Panel one, two;
    uint8_t frames[3][PANEL_FRAME_MAX], payload[PANEL_PAYLOAD_MAX];
    size_t lengths[3], count = 0;

    accepted(__LINE__, panel_fresh(&one, 1));
    accepted(__LINE__, panel_fresh(&two, 2));
    for (size_t i = 0; i < 3; i++) {
        size_t length = put_bytes(payload, payloads[i]);
        PanelAnswer sent = panel_send(&one, payload, length, 0, output, PANEL_OUTPUT_MIN,
                                      frames[i], PANEL_FRAME_MAX);
        accepted(__LINE__, sent.number);
        lengths[i] = sent.length;
    }
    for (size_t i = 3; i-- > 0;) {
        PanelAnswer received = panel_receive(&two, frames[i], lengths[i], output, PANEL_OUTPUT_MIN);
        accepted(__LINE__, received.number);
        count = received.count;
    }
    return count;
}

static void log_of_a_call(void)
{
    uint8_t output[PANEL_OUTPUT_MIN];

    part = "log of a call";
    paint(output, sizeof output);
    same_number(__LINE__, "count of log records", write_log(output), 3);
    for (size_t length = 3 * PANEL_LOG_RECORD; length <= sizeof output;
         length += sizeof output - 3 * PANEL_LOG_RECORD) {
        check_log(__LINE__, output, length, 0, 1, PANEL_LIFETIME_DEFAULT, THIRTY_TWO);
        check_log(__LINE__, output, length, 1, 1, PANEL_LIFETIME_DEFAULT + 1, "");
        check_log(__LINE__, output, length, 2, 1, PANEL_LIFETIME_DEFAULT + 2, "6f6b");
    }
    check_no_record(__LINE__, output, 3 * PANEL_LOG_RECORD, 3);
    check_no_record(__LINE__, output, sizeof output, 33);
}

/* Indexes past the end, of which some would come back to the start if the place wrapped round. */
static void index_past_the_end(void)
{
    uint8_t log[2 * PANEL_LOG_RECORD] = {0};

    part = "index past the end of a log";
    put_bytes(log, "3f ffffffffffffffff 01 7a");
    put_bytes(log + PANEL_LOG_RECORD, "00 +1 00");
    check_log(__LINE__, log, sizeof log, 0, 63, LAST, "7a");
    check_log(__LINE__, log, sizeof log, 1, 0, 1, "");
    check_no_record(__LINE__, log, sizeof log, 2);
    check_no_record(__LINE__, log, sizeof log, SIZE_MAX / PANEL_LOG_RECORD);
    check_no_record(__LINE__, log, sizeof log, SIZE_MAX / PANEL_LOG_RECORD + 1);
    check_no_record(__LINE__, log, sizeof log, SIZE_MAX / 2 + 1);
    check_no_record(__LINE__, log, sizeof log, SIZE_MAX);
}

static void cut_log(void)
{
    uint8_t log[2 * PANEL_LOG_RECORD] = {0};

    part = "cut log";
    put_bytes(log, "03 +514 02 4f4b");
    put_bytes(log + PANEL_LOG_RECORD, "04 +515 00");
    for (size_t length = 0; length < PANEL_LOG_RECORD; length++)
        check_no_record(__LINE__, log, length, 0);
    for (size_t length = PANEL_LOG_RECORD; length < sizeof log; length++) {
        check_log(__LINE__, log, length, 0, 3, 1300, "4f4b");
        check_no_record(__LINE__, log, length, 1);
    }
    check_log(__LINE__, log, sizeof log, 1, 4, 1301, "");
}

/* Bytes that no call writes. Source and what stands behind the payload are not looked at. */
static void odd_logs(void)
{
    uint8_t log[3 * PANEL_LOG_RECORD];

    part = "odd logs";
    memset(log, 0xff, sizeof log);
    put_bytes(log, "03 +514 20" THIRTY_TWO);
    put_bytes(log + PANEL_LOG_RECORD, "03 +514 21" THIRTY_TWO);
    put_bytes(log + 2 * PANEL_LOG_RECORD, "40 +514 02 4f4b");
    check_log(__LINE__, log, sizeof log, 0, 3, 1300, THIRTY_TWO);
    check_no_record(__LINE__, log, sizeof log, 1);
    check_log(__LINE__, log, sizeof log, 2, 64, 1300, "4f4b");
    put_bytes(log + PANEL_LOG_RECORD, "03 +514 ff");
    check_no_record(__LINE__, log, sizeof log, 1);
    put_bytes(log + PANEL_LOG_RECORD, "03 +0 02 4f4b");
    check_no_record(__LINE__, log, sizeof log, 1);
    put_bytes(log + PANEL_LOG_RECORD, "03 +100000000 02 4f4b"); /* the lower 32 bits are 0 */
    check_log(__LINE__, log, sizeof log, 1, 3, 4294967296, "4f4b");
}

/* ---- Bundles ---- */

enum { STEPS_MAX = 4 };

/* What a step is to give: where the part stands, and where the place is then. */
typedef struct {
    PanelBundleStep step;
    size_t start;
    size_t length;
    size_t place;
} Expected;

static const struct {
    int line;
    const char *bytes;
    size_t place;              /* where the reader starts */
    Expected steps[STEPS_MAX]; /* up to the first that is not a frame */
} bundles[] = {
    {__LINE__, "", 0, {{PANEL_BUNDLE_END, 0, 0, 0}}},
    {__LINE__, "00", 0, {{PANEL_BUNDLE_BROKEN, 0, 0, 0}}},
    {__LINE__, "ff", 0, {{PANEL_BUNDLE_BROKEN, 0, 0, 0}}},
    /* frames of no byte, one byte, several */
    {__LINE__, "0000", 0, {{PANEL_BUNDLE_FRAME, 2, 0, 2}, {PANEL_BUNDLE_END, 0, 0, 2}}},
    {__LINE__, "0001 61", 0, {{PANEL_BUNDLE_FRAME, 2, 1, 3}, {PANEL_BUNDLE_END, 0, 0, 3}}},
    {__LINE__, "0003 616263 0000 0002 6465", 0,
     {{PANEL_BUNDLE_FRAME, 2, 3, 5},
      {PANEL_BUNDLE_FRAME, 7, 0, 7},
      {PANEL_BUNDLE_FRAME, 9, 2, 11},
      {PANEL_BUNDLE_END, 0, 0, 11}}},
    /* cut: in a frame, before one, in a length */
    {__LINE__, "0003 6162", 0, {{PANEL_BUNDLE_BROKEN, 0, 0, 0}}},
    {__LINE__, "0001", 0, {{PANEL_BUNDLE_BROKEN, 0, 0, 0}}},
    {__LINE__, "0100 61", 0, {{PANEL_BUNDLE_BROKEN, 0, 0, 0}}},
    {__LINE__, "ffff 61", 0, {{PANEL_BUNDLE_BROKEN, 0, 0, 0}}},
    {__LINE__, "0001 61 0002 62", 0,
     {{PANEL_BUNDLE_FRAME, 2, 1, 3}, {PANEL_BUNDLE_BROKEN, 0, 0, 3}}},
    {__LINE__, "0001 61 00", 0, {{PANEL_BUNDLE_FRAME, 2, 1, 3}, {PANEL_BUNDLE_BROKEN, 0, 0, 3}}},
    /* from another place: at the second frame, at the end, past it */
    {__LINE__, "0001 61 0001 62", 3, {{PANEL_BUNDLE_FRAME, 5, 1, 6}, {PANEL_BUNDLE_END, 0, 0, 6}}},
    {__LINE__, "0001 61", 3, {{PANEL_BUNDLE_END, 0, 0, 3}}},
    {__LINE__, "0001 61", 4, {{PANEL_BUNDLE_BROKEN, 0, 0, 4}}},
    {__LINE__, "0001 61", SIZE_MAX - 1, {{PANEL_BUNDLE_BROKEN, 0, 0, SIZE_MAX - 1}}},
    {__LINE__, "0001 61", SIZE_MAX, {{PANEL_BUNDLE_BROKEN, 0, 0, SIZE_MAX}}},
    {__LINE__, "", 1, {{PANEL_BUNDLE_BROKEN, 0, 0, 1}}},
};

/* Makes a step, and checks all that it gives. */
static void check_step(int line, PanelBundle *bundle, const Expected *expected)
{
    const uint8_t *bytes = bundle->bytes, *frame = NULL;
    size_t length = bundle->length, frame_length = SIZE_MAX;

    same_number(line, "step", panel_bundle_next(bundle, &frame, &frame_length), expected->step);
    same_number(line, "start of the part", (uintptr_t)frame - (uintptr_t)bytes, expected->start);
    same_number(line, "length of the part", frame_length, expected->length);
    same_number(line, "place", bundle->place, expected->place);
    same_number(line, "bundle", (uintptr_t)bundle->bytes, (uintptr_t)bytes);
    same_number(line, "length of the bundle", bundle->length, length);
}

/* Reads each bundle up to its end or to where it is broken, and there three times more. */
static void read_bundles(void)
{
    uint8_t bytes[64];

    part = "bundles";
    for (size_t i = 0; i < sizeof bundles / sizeof bundles[0]; i++) {
        size_t length = put_bytes(bytes, bundles[i].bytes), s = 0;
        uint8_t *copy = copy_of(bytes, length);
        PanelBundle bundle = panel_bundle(copy, length);
        same_number(bundles[i].line, "place at the start", bundle.place, 0);
        bundle.place = bundles[i].place;
        for (; bundles[i].steps[s].step == PANEL_BUNDLE_FRAME; s++)
            check_step(bundles[i].line, &bundle, &bundles[i].steps[s]);
        for (int times = 0; times < 4; times++)
            check_step(bundles[i].line, &bundle, &bundles[i].steps[s]);
        same_bytes(bundles[i].line, "bytes of the bundle", copy, bytes, length, 0);
        free_copy(copy);
    }
}

/* The longest frame that 16 bits can say, whole and cut. */
static void longest_in_bundle(void)
{
    static uint8_t bytes[2 + 65535] = {0xff, 0xff};

    part = "the longest frame of a bundle";
    PanelBundle bundle = panel_bundle(bytes, sizeof bytes);
    check_step(__LINE__, &bundle, &(Expected){PANEL_BUNDLE_FRAME, 2, 65535, sizeof bytes});
    check_step(__LINE__, &bundle, &(Expected){PANEL_BUNDLE_END, 0, 0, sizeof bytes});
    bundle = panel_bundle(bytes, sizeof bytes - 1);
    check_step(__LINE__, &bundle, &(Expected){PANEL_BUNDLE_BROKEN, 0, 0, 0});
}

/* ---- Texts and version ---- */

static const struct {
    PanelNumber number;
    const char *text;
} texts[] = {
    {PANEL_ACCEPTED, "accepted"},
    {PANEL_REFUSED_FRAME_SHORT,
     "fewer than 19 bytes, or in version 2 fewer than 23, or too few for the entries and the "
     "length byte, or too few for the payload"},
    {PANEL_REFUSED_FRAME_MARK, "mark: not hexadecimal 44 52 59"},
    {PANEL_REFUSED_FRAME_VERSION, "version: not 1 or 2"},
    {PANEL_REFUSED_FRAME_SOURCE, "source: not 0 to 63"},
    {PANEL_REFUSED_FRAME_DEADLINE, "deadline 0"},
    {PANEL_REFUSED_FRAME_ENTRY, "entries: not each 1 or more and below the deadline"},
    {PANEL_REFUSED_FRAME_PAYLOAD_LENGTH, "payload length: not 0 to 32"},
    {PANEL_REFUSED_FRAME_LEFT_OVER, "bytes left over"},
    {PANEL_REFUSED_PAYLOAD_LONG, "payload to send longer than 32"},
    {PANEL_REFUSED_BUFFER_SHORT,
     "output under 1,386 bytes, or the frame buffer of a send under 567"},
    {PANEL_REFUSED_PANEL_NUMBER, "a panel number above 63 asked of a fresh panel"},
    {PANEL_REFUSED_OWN_SOURCE, "the frame's source is the own number"},
    {PANEL_REFUSED_LAPSED,
     "the message has lapsed: its deadline is below the time or at most the floor"},
    {PANEL_REFUSED_HAD_ALREADY,
     "its deadline is at most its source's mark, or it is waiting already"},
    {PANEL_REFUSED_LIST_FULL, "32 are waiting and this one is not ready"},
    {PANEL_REFUSED_DEADLINE_TOO_HIGH,
     "the deadline of a send would pass 18,446,744,073,709,551,615"},
    {PANEL_REFUSED_CLOCK_BACK, "the clock reading is below the panel's time"},
    {PANEL_REFUSED_RECORD_BROKEN,
     "the record has an own number above 63, a mark or barrier entry above high, over 32 waiting, "
     "or a waiting message that no readable frame carries"},
    {PANEL_REFUSED_TOO_FAR_AHEAD, "its deadline is above time + 1,209,600"},
};

static void same_text(int line, const char *what, const char *given, const char *expected)
{
    if (fails(strcmp(given, expected) == 0, line, what))
        printf(" is \"%s\", expected \"%s\"\n", given, expected);
}

/* Each number has the words of document 01 or 02; all other numbers have the same words, and no
   two that the header names do. */
static void number_texts(void)
{
    const char *none = panel_number_text((PanelNumber)12);
    size_t known = 0;

    part = "texts";
    for (unsigned number = 0; number < 256; number++) {
        bool listed = known < sizeof texts / sizeof texts[0] && texts[known].number == number;
        same_text(__LINE__, "text", panel_number_text((PanelNumber)number),
                  listed ? texts[known].text : none);
        known += listed;
    }
    same_number(__LINE__, "count of texts", known, 20);
    for (size_t i = 0; i < known; i++) {
        const char *text = panel_number_text(texts[i].number);
        same_number(__LINE__, "a text is empty or that of no number",
                    *text == '\0' || strcmp(text, none) == 0, false);
        for (size_t j = 0; j < i; j++)
            same_number(__LINE__, "a text stands twice",
                        strcmp(text, panel_number_text(texts[j].number)) == 0, false);
    }
}

static void version(void)
{
    char text[32];

    part = "version";
    snprintf(text, sizeof text, "%d.%d.%d", PANEL_VERSION_MAJOR, PANEL_VERSION_MINOR,
             PANEL_VERSION_PATCH);
    same_text(__LINE__, "version", PANEL_VERSION, text);
}

void test_readers(void)
{
    file = __FILE__;
    log_of_a_call();
    index_past_the_end();
    cut_log();
    odd_logs();
    read_bundles();
    longest_in_bundle();
    number_texts();
    version();
}
