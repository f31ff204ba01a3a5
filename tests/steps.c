#include "steps.h"

#include <inttypes.h>
#include <stdio.h>
#include <string.h>

Panel panels[PANEL_PANELS];
uint8_t output[MARGIN + PANEL_OUTPUT_MIN + MORE_MAX + MARGIN];
uint8_t buffer[MARGIN + PANEL_FRAME_MAX + MORE_MAX + MARGIN];
struct Lent lent;

static bool seen[CALLS][256]; /* which numbers each call answered */

/* ---- Records ---- */

void put_waiting(Panel *panel, const char *frame)
{
    uint8_t *slot = panel->slots + panel->count * PANEL_SLOT_BYTES;
    size_t length = put_bytes(slot + 2, frame);
    slot[0] = (uint8_t)(length >> 8);
    slot[1] = (uint8_t)length;
    panel->count++;
}

Panel panel_of(uint8_t own, const Record *record)
{
    Panel p;
    memset(&p, 0, sizeof p);
    p.own = own;
    p.time = record->time;
    p.high = record->high;
    for (size_t i = 0; i < PANEL_PANELS && record->marks[i].deadline != 0; i++)
        p.marks[record->marks[i].panel] = record->marks[i].deadline;
    for (size_t i = 0; i < PANEL_PANELS && record->barrier[i].deadline != 0; i++)
        p.barrier[record->barrier[i].panel] = record->barrier[i].deadline;
    for (size_t i = 0; i < PANEL_WAITING_MAX && record->waiting[i] != NULL; i++)
        put_waiting(&p, record->waiting[i]);
    p.floor = record->floor;
    return p;
}

void paint_unused(Panel *panel)
{
    size_t own_end = offsetof(Panel, own) + sizeof panel->own;

    for (size_t i = 0; i < PANEL_WAITING_MAX; i++) {
        uint8_t *slot = panel->slots + i * PANEL_SLOT_BYTES;
        size_t used = i < panel->count ? 2 + ((size_t)slot[0] << 8 | slot[1]) : 0;
        paint(slot + used, PANEL_SLOT_BYTES - used);
    }
    paint((uint8_t *)panel + own_end, offsetof(Panel, time) - own_end);
}

/* Marks or barrier entries. */
static void same_numbers(int line, const char *what, const uint64_t *given,
                         const uint64_t *expected)
{
    size_t s = 0;
    while (s < PANEL_PANELS && given[s] == expected[s])
        s++;
    if (fails(s == PANEL_PANELS, line, what))
        printf(" of panel %zu is %" PRIu64 ", expected %" PRIu64 "\n", s, given[s], expected[s]);
}

/* All that is part of the record; places behind the waiting messages are not. */
static void same_record(int line, const Panel *given, const Panel *expected)
{
    same_number(line, "own number", given->own, expected->own);
    same_number(line, "time", given->time, expected->time);
    same_number(line, "high", given->high, expected->high);
    same_numbers(line, "mark", given->marks, expected->marks);
    same_numbers(line, "barrier entry", given->barrier, expected->barrier);
    same_number(line, "number of waiting messages", given->count, expected->count);
    for (size_t i = 0; i < expected->count; i++) {
        const uint8_t *slot = expected->slots + i * PANEL_SLOT_BYTES;
        size_t length = (size_t)slot[0] << 8 | slot[1];
        same_bytes(line, "slot of a waiting message", given->slots + i * PANEL_SLOT_BYTES, slot,
                   2 + length, 0);
    }
    same_number(line, "floor", given->floor, expected->floor);
}

/* ---- What is lent to a call ---- */

void lend(const Panel *panel)
{
    paint(lent.before, MARGIN);
    paint(lent.behind, MARGIN);
    memcpy(&lent.panel, panel, sizeof lent.panel);
}

void check_margins(int line)
{
    uint8_t expected[MARGIN];

    paint(expected, MARGIN);
    same_bytes(line, "margin before the record", lent.before, expected, MARGIN, MARGIN);
    same_bytes(line, "margin behind the record", lent.behind, expected, MARGIN, 0);
}

/* Every byte of the output: the log records, and the old content before and behind them. */
static size_t check_output(const Step *s)
{
    uint8_t expected[sizeof output];
    size_t count = 0;

    paint(expected, sizeof expected);
    for (; count <= PANEL_WAITING_MAX && s->log[count] != NULL; count++) {
        uint8_t *record = expected + MARGIN + count * PANEL_LOG_RECORD;
        memset(record, 0, PANEL_LOG_RECORD);
        put_bytes(record, s->log[count]);
    }
    same_bytes(s->line, "output", output, expected, sizeof expected, MARGIN);
    return count;
}

/* Every byte of the frame buffer: the frame, and the old content before and behind it. */
static size_t check_buffer(const Step *s)
{
    uint8_t expected[sizeof buffer];
    size_t length = 0;

    paint(expected, sizeof expected);
    if (s->frame != NULL)
        length = put_bytes(expected + MARGIN, s->frame);
    same_bytes(s->line, "frame buffer", buffer, expected, sizeof expected, MARGIN);
    return length;
}

/* The record that was lent: after a refusal each of its bytes is as it was, after a set back each
   but those of the time. */
static void check_record(const Step *s, const Panel *given)
{
    uint8_t bytes[sizeof *given];

    check_margins(s->line);
    memcpy(bytes, given, sizeof bytes);
    if (s->number == PANEL_ACCEPTED) {
        Panel expected = panel_of(s->at, &s->record);
        same_record(s->line, &lent.panel, &expected);
        memcpy(bytes + offsetof(Panel, time), &expected.time, sizeof expected.time);
    }
    if (s->number != PANEL_ACCEPTED || s->call == SET_BACK)
        same_bytes(s->line, "record", &lent.panel, bytes, sizeof bytes, 0);
}

/* ---- Calls ---- */

void same_answer(int line, Call by, PanelNumber given, PanelNumber expected)
{
    seen[by][given] = true;
    same_number(line, "number", given, expected);
}

PanelAnswer make(const Step *s, const uint8_t *bytes, size_t length)
{
    size_t output_length = (size_t)(PANEL_OUTPUT_MIN + s->output_more);
    size_t buffer_length = (size_t)(PANEL_FRAME_MAX + s->buffer_more);

    paint(output, sizeof output);
    paint(buffer, sizeof buffer);
    if (s->call == SEND)
        return panel_send(&lent.panel, bytes, length, (uint16_t)s->value, output + MARGIN,
                          output_length, buffer + MARGIN, buffer_length);
    if (s->call == BEACON)
        return panel_beacon(&lent.panel, bytes, length, output + MARGIN, output_length,
                            buffer + MARGIN, buffer_length);
    if (s->call == RECEIVE)
        return panel_receive(&lent.panel, bytes, length, output + MARGIN, output_length);
    if (s->call == SET_BACK)
        return (PanelAnswer){.number = panel_set_back(&lent.panel, s->value)};
    return panel_clock(&lent.panel, s->value, output + MARGIN, output_length);
}

/* Traces a frame on a copy of a record. Every byte of both is as it was, and the number is that of
   a receive with an output that is long enough. */
static PanelTrace trace(int line, const Panel *given, const uint8_t *expected, size_t length)
{
    static uint8_t received_output[PANEL_OUTPUT_MIN];
    static Panel received;
    uint8_t *bytes = copy_of(expected, length);

    lend(given);
    PanelTrace answer = panel_trace(&lent.panel, bytes, length);
    check_margins(line);
    same_bytes(line, "record that was traced on", &lent.panel, given, sizeof lent.panel, 0);
    same_bytes(line, "frame that was traced", bytes, expected, length, 0);
    memcpy(&received, given, sizeof received);
    same_answer(line, TRACE, answer.number,
                panel_receive(&received, bytes, length, received_output,
                              sizeof received_output).number);
    free_copy(bytes);
    return answer;
}

void call(const Step *s, const Panel *given)
{
    uint8_t expected[BYTES_MAX];
    size_t length = s->bytes != NULL ? put_bytes(expected, s->bytes) : 0;
    uint8_t *bytes = copy_of(expected, length);

    if (s->call == RECEIVE)
        trace(s->line, given, expected, length);
    lend(given);
    PanelAnswer answer = make(s, bytes, length);
    same_answer(s->line, s->call, answer.number, s->number);
    same_number(s->line, "count of log records", answer.count, check_output(s));
    same_number(s->line, "length of the frame", answer.length, check_buffer(s));
    same_bytes(s->line, "bytes that the call was given", bytes, expected, length, 0);
    check_record(s, given);
    free_copy(bytes);
}

void step(const Step *s)
{
    Panel *panel = &panels[s->at];
    size_t count = panel->count;

    if (s->broken)
        panel->count = PANEL_WAITING_MAX + 1;
    call(s, panel);
    memcpy(panel, &lent.panel, sizeof *panel);
    if (s->broken)
        panel->count = count;
}

void refused_as_broken(int line, const Panel *given)
{
    static const Step broken[] = {
        {.call = SEND, .bytes = "", .number = PANEL_REFUSED_RECORD_BROKEN},
        {.call = BEACON, .bytes = "", .number = PANEL_REFUSED_RECORD_BROKEN},
        {.call = RECEIVE, .bytes = "445259 0002 01 +2bc +0 00",
         .number = PANEL_REFUSED_RECORD_BROKEN},
        {.call = CLOCK, .value = 0, .number = PANEL_REFUSED_RECORD_BROKEN},
        {.call = SET_BACK, .value = 0, .number = PANEL_REFUSED_RECORD_BROKEN},
    };
    for (size_t i = 0; i < COUNT(broken); i++) {
        Step s = broken[i];
        s.line = line;
        call(&s, given);
    }
}

void check_trace(int line, const Panel *given, const char *frame, PanelTrace expected)
{
    uint8_t bytes[BYTES_MAX];
    size_t length = put_bytes(bytes, frame);

    PanelTrace answer = trace(line, given, bytes, length);
    same_number(line, "number", answer.number, expected.number);
    same_number(line, "ready", answer.ready, expected.ready);
    same_number(line, "number of entries visited", answer.visited, expected.visited);
}

/* ---- Parts of the tests ---- */

void start(const char *name)
{
    part = name;
    for (size_t own = 0; own < PANEL_PANELS; own++) {
        /* at line 0, as it is of no step */
        same_answer(0, FRESH, panel_fresh(&panels[own], (uint8_t)own), PANEL_ACCEPTED);
        paint_unused(&panels[own]);
    }
}

void run_from(const char *name, const Record *record, const Step *steps, size_t count)
{
    start(name);
    if (record != NULL) {
        panels[3] = panel_of(3, record);
        paint_unused(&panels[3]);
    }
    for (size_t i = 0; i < count; i++)
        step(&steps[i]);
}

static const struct {
    const char *name;
    PanelNumber refusals[PANEL_REFUSED_TOO_FAR_AHEAD]; /* that it can answer, up to the first 0 */
} calls[CALLS] = {
    [FRESH] = {"fresh", {11}},
    [SEND] = {"send", {9, 10, 24, 26}},
    [BEACON] = {"beacon", {9, 10, 24, 26}},
    [RECEIVE] = {"receive", {1, 2, 3, 4, 5, 6, 7, 8, 10, 20, 21, 22, 23, 26, 32}},
    [CLOCK] = {"clock", {10, 25, 26}},
    [SET_BACK] = {"set back", {26}},
    [TRACE] = {"trace", {1, 2, 3, 4, 5, 6, 7, 8, 20, 21, 22, 23, 26, 32}},
};

/* Whether a call can answer a number: one of its refusals, or the 0 behind them. */
static bool can_answer(Call by, unsigned number)
{
    const PanelNumber *refusal = calls[by].refusals;
    while (*refusal != PANEL_ACCEPTED && *refusal != number)
        refusal++;
    return *refusal == number;
}

void all_answered(void)
{
    file = __FILE__;
    part = "numbers answered";
    for (Call by = FRESH; by < CALLS; by++) {
        for (unsigned number = 0; number < 256; number++) {
            bool can = can_answer(by, number);
            if (fails(seen[by][number] == can, __LINE__, calls[by].name))
                printf(" %s %u\n", can ? "never answered" : "answered", number);
        }
    }
}
