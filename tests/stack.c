/*
 * How much stack the calls take: each works on a full list and hands it whole, or sets the clock
 * back or traces a frame there, or fills the last slot, on a stack of its own that was painted
 * before. Frames that come in are short ones and the longest, of both versions. A program of its
 * own, as valgrind can't follow the change of stack.
 */
#define _XOPEN_SOURCE 600 /* for ucontext.h */
#include "checks.h"
#include "panel.h"

#include <stdio.h>
#include <ucontext.h>

static uint8_t stack[8 * PANEL_STACK_BYTES], untouched[sizeof stack];
static uint8_t output[PANEL_OUTPUT_MIN], buffer[PANEL_FRAME_MAX];
static ucontext_t caller, callee;
static Panel panel;
static PanelAnswer answer;
static PanelTrace traced;

/* The frame that comes in; it is no part of the stack that is measured. */
static uint8_t frame[PANEL_FRAME_MAX];
static size_t frame_length;

static void put_frame(const char *text)
{
    frame_length = put_bytes(frame, text);
}

/* One with 64 entries and the longest payload: what stands before the entries, and each entry. */
static void put_longest(const char *head, const char *entry)
{
    put_frame(head);
    for (int i = 0; i < PANEL_PANELS; i++)
        frame_length += put_bytes(frame + frame_length, entry);
    frame_length += put_bytes(frame + frame_length, "20 +61 +62 +63 +64");
}

#define SHORT_1 "445259 0001 01 00000064 0000000000000000 00"
#define SHORT_2 "445259 0002 01 +64 +0 00"

/* With deadline 3000 and entries of 100, which have lapsed at time 101. */
#define LONGEST_1 "445259 0001 03 00000bb8 ffffffffffffffff", "00000064"
#define LONGEST_2 "445259 0002 03 +bb8 +ffffffffffffffff", "+64"

/* The deadline of the own message, sent at time 0: that of a beacon. */
enum { OWN_DEADLINE = PANEL_LIFETIME_BEACON };

/* Panel 7 takes 32 messages of panel 2, deadlines from 2000 on, which wait for a message of a
   panel from 0 to 7, with its deadline. */
static void fill(unsigned source, unsigned deadline)
{
    char text[64];

    same_number(__LINE__, "number", panel_fresh(&panel, 7), PANEL_ACCEPTED);
    for (unsigned i = 0; i < PANEL_WAITING_MAX; i++) {
        snprintf(text, sizeof text, "445259 0002 02 +%x +%x +%x 00", 2000 + i, 1u << source,
                 deadline);
        put_frame(text);
        answer = panel_receive(&panel, frame, frame_length, output, sizeof output);
        same_number(__LINE__, "number", answer.number, PANEL_ACCEPTED);
    }
}

static void make_send(void)
{
    answer = panel_send(&panel, buffer, 0, OWN_DEADLINE, output, sizeof output, buffer,
                        sizeof buffer);
}

static void make_beacon(void)
{
    answer = panel_beacon(&panel, buffer, 0, output, sizeof output, buffer, sizeof buffer);
}

static void make_receive(void)
{
    answer = panel_receive(&panel, frame, frame_length, output, sizeof output);
}

static void make_clock(void)
{
    answer = panel_clock(&panel, 101, output, sizeof output);
}

static void make_set_back(void)
{
    answer = (PanelAnswer){.number = panel_set_back(&panel, 0)};
}

static void make_trace(void)
{
    traced = panel_trace(&panel, frame, frame_length);
}

/* Runs a function on the painted stack. */
static void run(void (*function)(void))
{
    paint(stack, sizeof stack);
    getcontext(&callee);
    callee.uc_stack.ss_sp = stack;
    callee.uc_stack.ss_size = sizeof stack;
    callee.uc_link = &caller;
    makecontext(&callee, function, 0);
    swapcontext(&caller, &callee);
}

/* The bytes from the lowest that was written to the upper end. */
static size_t taken(void)
{
    size_t left = 0;

    paint(untouched, sizeof untouched);
    while (left < sizeof stack && stack[left] == untouched[left])
        left++;
    return sizeof stack - left;
}

/* What a call took, with the function that made it. */
static void check_taken(int line)
{
    if (fails(taken() <= PANEL_STACK_BYTES, line, "stack"))
        printf(" is %zu bytes, expected at most %d\n", taken(), PANEL_STACK_BYTES);
}

/* A call that hands so many messages. */
static void check_stack(int line, void (*make)(void), size_t count)
{
    run(make);
    same_number(line, "number", answer.number, PANEL_ACCEPTED);
    same_number(line, "count of log records", answer.count, count);
    check_taken(line);
}

/* A short frame, for which all that wait are waiting. */
static void check_short(int line, const char *text)
{
    fill(1, 100);
    put_frame(text);
    check_stack(line, make_receive, PANEL_WAITING_MAX + 1);
}

/* A longest frame: its message is ready, and so are all that wait; it waits in the last slot; and
   it is traced where no slot is left. */
static void check_longest(int line, const char *head, const char *entry)
{
    fill(1, 100);
    put_longest(head, entry);
    panel.time = 101;
    check_stack(line, make_receive, PANEL_WAITING_MAX + 1);
    fill(1, 100);
    put_longest(head, entry);
    panel.count--;
    check_stack(line, make_receive, 0);
    fill(1, 100);
    put_longest(head, entry);
    run(make_trace);
    same_number(line, "number", traced.number, PANEL_REFUSED_LIST_FULL);
    same_number(line, "number of entries visited", traced.visited, 1);
    check_taken(line);
}

int main(void)
{
    file = __FILE__;
    part = "stack";
    fill(7, OWN_DEADLINE);
    check_stack(__LINE__, make_send, PANEL_WAITING_MAX + 1);
    fill(7, OWN_DEADLINE);
    check_stack(__LINE__, make_beacon, PANEL_WAITING_MAX + 1);
    check_short(__LINE__, SHORT_1);
    check_short(__LINE__, SHORT_2);
    check_longest(__LINE__, LONGEST_1);
    check_longest(__LINE__, LONGEST_2);
    fill(1, 100);
    check_stack(__LINE__, make_clock, PANEL_WAITING_MAX);
    fill(1, 100);
    panel.time = 99;
    check_stack(__LINE__, make_set_back, 0);
    same_number(__LINE__, "time", panel.time, 0);
    return checked();
}
