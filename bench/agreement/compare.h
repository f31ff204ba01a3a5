/* Comparing what both sides give. The first difference is printed, and ends the program with 1. */
#ifndef COMPARE_H
#define COMPARE_H

#include "../reference.h"

#include <panel.h>

typedef enum {
    FRESH, SEND, BEACON, RECEIVE, CLOCK, SET_BACK, TRACE, CHECK, LOG, BUNDLE, KINDS
} Kind;

extern const char *const kind_name[KINDS];

/* The call at hand, as a difference tells of it. */
typedef struct {
    unsigned long call; /* which one it is */
    Kind kind;
    const char *what; /* one of its arguments, and its value */
    uint64_t value;
    const uint8_t *bytes; /* the bytes that it is given */
    size_t length;
    size_t output_length;
    Panel panel; /* the records that it is given */
    Record record;
} Call;

extern Call call;

_Noreturn void differ(const char *format, ...) __attribute__((format(printf, 1, 2)));

void same_number(const char *what, uint64_t proved, uint64_t c);

/* `from` is the place that counts as byte 0 in what is printed. */
void same_bytes(const char *what, const uint8_t *proved, const uint8_t *c, size_t length,
                size_t from);

/* Compares the bytes in front of the slots, the slots in use, and the bytes behind the slots. */
void same_record(const Panel *panel, const Record *record);

/* Each byte of both records is as it was given. */
void same_as_given(const Panel *panel, const Record *record);

/* Each byte is, but for the time, which is that of the C record in both. */
void same_but_time(const Panel *panel, const Record *record);

#endif
