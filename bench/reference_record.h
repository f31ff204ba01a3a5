/* Part of reference.c: the record, and settling. */
#ifndef REFERENCE_RECORD_H
#define REFERENCE_RECORD_H

#include "reference_frames.h"

static inline uint64_t larger(uint64_t a, uint64_t b)
{
    return a < b ? b : a;
}

/* Is the message one that a readable frame carries? */
static inline bool readable(const Message *message)
{
    if (message->source >= PANELS || message->deadline == 0 || message->length > PAYLOAD_MAX)
        return false;
    size_t entries = (size_t)__builtin_popcountll(message->mask);
    for (size_t k = 0; k < entries; k++) {
        if (message->entries[k] == 0 || message->entries[k] >= message->deadline)
            return false;
    }
    return true;
}

/* The negation of refusal 26. */
static inline bool sound(const Record *record)
{
    if (record->own >= PANELS || record->count > WAITING_MAX)
        return false;

    for (size_t s = 0; s < PANELS; s++) {
        if (record->marks[s] > record->high || record->barrier[s] > record->high)
            return false;
    }

    for (size_t i = 0; i < record->count; i++) {
        if (!readable(&record->waiting[i]))
            return false;
    }
    return true;
}

/* Below the time, or at most the floor. */
static inline bool lapsed(const Record *record, uint64_t deadline)
{
    return deadline < record->time || deadline <= record->floor;
}

/*
 * The test for ready. It goes from one set bit to the next, lowest first, up to
 * the first entry that is not met, and where a count is given adds its visits.
 */
static inline bool visit(const Record *record, const Message *message, size_t *visited)
{
    const uint64_t *entry = message->entries;
    for (uint64_t rest = message->mask; rest != 0; rest &= rest - 1, entry++) {
        int source = __builtin_ctzll(rest);
        if (visited)
            ++*visited;
        if (record->marks[source] < *entry && !lapsed(record, *entry))
            return false;
    }
    return true;
}

static inline bool ready(const Record *record, const Message *message)
{
    return visit(record, message, NULL);
}

static inline bool is_waiting(const Record *record, const Message *message)
{
    for (size_t i = 0; i < record->count; i++) {
        const Message *other = &record->waiting[i];
        if (other->source == message->source && other->deadline == message->deadline)
            return true;
    }
    return false;
}

/*
 * Does the log go without this entry of a message that is handed? An entry that
 * has lapsed by the floor alone does not count, as it can't raise the floor.
 */
static inline bool goes_without(const Record *record, int source, uint64_t entry)
{
    return record->marks[source] < entry && entry < record->time;
}

/*
 * Removes each barrier entry that is at most the message's entry for the same
 * panel, and raises the floor to the largest entry that the log goes without.
 * It goes from one set bit to the next, as the test for ready does.
 */
static inline void pass_entries(Record *record, const Message *message)
{
    const uint64_t *entry = message->entries;
    for (uint64_t rest = message->mask; rest != 0; rest &= rest - 1, entry++) {
        int source = __builtin_ctzll(rest);
        if (record->barrier[source] <= *entry)
            record->barrier[source] = 0;
        if (goes_without(record, source, *entry) && record->floor < *entry)
            record->floor = *entry;
    }
}

/* Puts a message into marks, barrier and high, and writes its log record. */
static inline void put_in_log(Record *record, const Message *message, uint8_t *log)
{
    uint8_t source = message->source;
    record->marks[source] = larger(record->marks[source], message->deadline);
    record->barrier[source] = larger(record->barrier[source], message->deadline);
    record->high = larger(record->high, message->deadline);

    log[0] = source;
    put64(log + LOG_DEADLINE_AT, message->deadline);
    log[LOG_LENGTH_AT] = message->length;
    memcpy(log + LOG_PAYLOAD_AT, message->payload, message->length);
    memset(log + LOG_PAYLOAD_AT + message->length, 0, (size_t)(PAYLOAD_MAX - message->length));
}

static inline void hand(Record *record, const Message *message, uint8_t *log)
{
    pass_entries(record, message);
    put_in_log(record, message, log);
}

/* Does a go before b? Equal ones keep the order of the list. */
static inline bool before(const Message *a, const Message *b)
{
    if (a->deadline != b->deadline)
        return a->deadline < b->deadline;
    return a->source < b->source;
}

/* The place of the one to hand next, or `count` if none is ready. */
static inline size_t choose(const Record *record, const Message *const *left, size_t count)
{
    size_t best = 0;
    while (best < count && !ready(record, left[best]))
        best++;
    for (size_t i = best + 1; i < count; i++) {
        if (before(left[i], left[best]) && ready(record, left[i]))
            best = i;
    }
    return best;
}

/*
 * Settles, with `handed` log records already written, and gives their new
 * number. The list is closed up once, at the end.
 */
static inline size_t settle(Record *record, uint8_t *output, size_t handed)
{
    const Message *left[WAITING_MAX]; /* those that still wait, in their order */
    size_t count = record->count;

    for (size_t i = 0; i < count; i++)
        left[i] = &record->waiting[i];
    for (;;) {
        size_t best = choose(record, left, count);
        if (best == count)
            break;
        hand(record, left[best], output + LOG_RECORD * handed);
        handed++;
        count--;
        memmove(left + best, left + best + 1, (count - best) * sizeof left[0]);
    }

    for (size_t i = 0; i < count; i++) {
        if (left[i] != &record->waiting[i])
            record->waiting[i] = *left[i];
    }
    record->count = count;
    return handed;
}

#endif
