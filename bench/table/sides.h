/*
 * The sides: the proved call and the call in C, each in place on a record
 * behind a pointer. A side makes the call of the case at hand so many times, as
 * a program does: it makes the call, looks at the number, and goes on with the
 * same record.
 */
#ifndef SIDES_H
#define SIDES_H

#include "case.h"

enum { PROVED, IN_C, SIDES };

extern const char *const side_name[SIDES];

typedef void Loop(long times);

/*
 * A call works on the record that the last one left, so what it changes is put
 * back before each call. Putting back is a loop of its own too, to be taken
 * off; it is null where the call changes nothing.
 */
typedef struct {
    Loop *call;
    Loop *put_back;
} Side;

/* Number and count that the last call gave. */
typedef struct {
    uint8_t number;
    size_t count;
} Answer;

extern Answer answer;

/* Starts the case at hand: makes the records, finds what the calls change, and gives the sides. */
void start_case(Side sides[SIDES]);

#endif
