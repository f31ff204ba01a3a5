/* What the loops of both sides share. */
#ifndef LOOPS_H
#define LOOPS_H

#include "sides.h"

#include <string.h>

#define INLINED static inline __attribute__((always_inline))

/* ---- The record of a side ---- */

typedef struct {
    void *record;
    const void *kept; /* how it was before the call */
    size_t size;      /* bytes of the record */
    size_t front;     /* bytes in front of the waiting messages */
    size_t message;   /* bytes of a waiting message */
    size_t floor;     /* where the floor stands, behind the waiting messages */
    size_t from;      /* the first byte that the call changes, but for the floor */
    size_t changed;   /* how many bytes from there to the last that it changes, or 0 */
    bool raised;      /* whether it changes the floor */
} Worked;

/* Puts back what the call changed; the floor by itself, as it stands far behind the rest. */
INLINED void put_back(const Worked *worked)
{
    if (worked->changed != 0)
        memcpy((uint8_t *)worked->record + worked->from,
               (const uint8_t *)worked->kept + worked->from, worked->changed);
    if (worked->raised)
        memcpy((uint8_t *)worked->record + worked->floor,
               (const uint8_t *)worked->kept + worked->floor, sizeof(uint64_t));
}

/* ---- What a caller does with an answer ---- */

/* Keeps what is in memory from being optimised away. */
INLINED void keep(void)
{
    __asm__ volatile("" : : : "memory");
}

/* What the caller has counted, and the last message that it read in a log. */
typedef struct {
    size_t handed;
    size_t refused;
    size_t ready; /* traces of messages that are ready */
    uint64_t deadline;
    uint8_t source;
    uint8_t length;
    uint8_t payload[PAYLOAD_MAX];
} Caller;

extern Caller caller;

/* Looks at the number, and at the count if it is 0. */
INLINED void look(uint8_t number, size_t count)
{
    if (number == 0)
        caller.handed += count;
    else
        caller.refused++;
    answer = (Answer){number, count};
    keep();
}

/* Takes a message out of a log, with the zeros behind its payload. */
INLINED void take(uint8_t source, uint64_t deadline, const uint8_t *payload, uint8_t length)
{
    caller.source = source;
    caller.deadline = deadline;
    caller.length = length;
    memcpy(caller.payload, payload, PAYLOAD_MAX);
    keep();
}

/* ---- The loops that each side has ---- */

typedef struct {
    Loop *calls[KINDS];
    Loop *put_back;
    Worked *worked;
} Loops;

extern const Loops proved_loops, c_loops;

/* A loop over calls of a kind; the kind is a constant, so that it does not choose. */
#define LOOP(name, make_call, worked, kind)                                       \
    static void name(long times)                                                  \
    {                                                                             \
        for (long i = 0; i < times; i++) {                                        \
            if (CHANGES_RECORD(kind))                                             \
                put_back(worked);                                                 \
            make_call(kind);                                                      \
        }                                                                         \
    }

/* All loops of a side, whose function make_call makes the call of a kind. */
#define LOOPS(name, make_call, worked)                                            \
    LOOP(check_loop, make_call, worked, CHECK)                                    \
    LOOP(fresh_loop, make_call, worked, FRESH)                                    \
    LOOP(log_loop, make_call, worked, LOG)                                        \
    LOOP(bundle_loop, make_call, worked, BUNDLE)                                  \
    LOOP(trace_loop, make_call, worked, TRACE)                                    \
    LOOP(send_loop, make_call, worked, SEND)                                      \
    LOOP(beacon_loop, make_call, worked, BEACON)                                  \
    LOOP(receive_loop, make_call, worked, RECEIVE)                                \
    LOOP(read_loop, make_call, worked, RECEIVE_AND_READ)                          \
    LOOP(received_bundle_loop, make_call, worked, RECEIVE_BUNDLE)                 \
    LOOP(clock_loop, make_call, worked, CLOCK)                                    \
    LOOP(set_back_loop, make_call, worked, SET_BACK)                              \
                                                                                  \
    static void put_back_loop(long times)                                         \
    {                                                                             \
        for (long i = 0; i < times; i++) {                                        \
            put_back(worked);                                                     \
            keep();                                                               \
        }                                                                         \
    }                                                                             \
                                                                                  \
    const Loops name = {                                                          \
        {check_loop, fresh_loop, log_loop, bundle_loop, trace_loop, send_loop,    \
         beacon_loop, receive_loop, read_loop, received_bundle_loop, clock_loop,  \
         set_back_loop},                                                          \
        put_back_loop,                                                            \
        worked                                                                    \
    };

#endif
