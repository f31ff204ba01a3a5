/* Counts of the answers that came. */
#ifndef SEEN_H
#define SEEN_H

#include "compare.h"

/* An answer of the call at hand. */
void saw_number(uint8_t number);

/* What an accepted call handed and left waiting. */
void saw_accepted(size_t handed, size_t waiting);

/* An accepted receive: whether the frame is of version 1, and whether more wait after it. */
void saw_taken(bool version_1, bool waits);

/* The barrier before an accepted receive or clock call, and after it. */
void saw_barrier(const uint64_t *before, const uint64_t *after);

/* The floor before an accepted call, and after it. */
void saw_floor(uint64_t before, uint64_t after);

/* A 21: whether the message has lapsed by the time, or by the floor alone. */
void saw_lapsed(bool by_time);

/* The time before an accepted set back, and after it. */
void saw_set_back(uint64_t before, uint64_t after);

/* What a trace answered beside its number. */
void saw_visits(bool ready, size_t visited);

#endif
