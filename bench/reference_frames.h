/* Part of reference.c: the bytes of frames. */
#ifndef REFERENCE_FRAMES_H
#define REFERENCE_FRAMES_H

#include "reference.h"

#include <endian.h>
#include <string.h>

/* Bytes of the deadline and of an entry in version 1 and in version 2. What stands behind the
   deadline stands further behind in version 2. */
enum { WIDTH_1 = 4, WIDTH_2 = 8 };

enum { VERSION_AT = 3, SOURCE_AT = 5, DEADLINE_AT = 6 };

static const uint8_t frame_mark[VERSION_AT] = {0x44, 0x52, 0x59};

static inline size_t mask_at(size_t width)
{
    return DEADLINE_AT + width;
}

static inline size_t entries_at(size_t width)
{
    return mask_at(width) + 8;
}

static inline uint32_t get32(const uint8_t *at)
{
    uint32_t highest_first;
    memcpy(&highest_first, at, sizeof highest_first);
    return be32toh(highest_first);
}

static inline uint64_t get64(const uint8_t *at)
{
    uint64_t highest_first;
    memcpy(&highest_first, at, sizeof highest_first);
    return be64toh(highest_first);
}

/* A deadline or an entry. */
static inline uint64_t get_due(const uint8_t *at, size_t width)
{
    return width == WIDTH_1 ? get32(at) : get64(at);
}

static inline void put32(uint8_t *at, uint32_t number)
{
    uint32_t highest_first = htobe32(number);
    memcpy(at, &highest_first, sizeof highest_first);
}

static inline void put64(uint8_t *at, uint64_t number)
{
    uint64_t highest_first = htobe64(number);
    memcpy(at, &highest_first, sizeof highest_first);
}

static inline void put_due(uint8_t *at, uint64_t due, size_t width)
{
    if (width == WIDTH_1)
        put32(at, (uint32_t)due);
    else
        put64(at, due);
}

/* The width of a frame, by its version; 0 for a version that is neither 1 nor 2. */
static inline size_t width_of(const uint8_t *frame)
{
    if (frame[VERSION_AT] != 0)
        return 0;
    return frame[VERSION_AT + 1] == 2 ? WIDTH_2 : frame[VERSION_AT + 1] == 1 ? WIDTH_1 : 0;
}

/* Inlined for each width, which is a constant then. */
#define FOR_A_WIDTH static inline __attribute__((always_inline))

/* Reads the entries, and keeps them where a message is given; 6 if one is wrong, or 0. */
FOR_A_WIDTH uint8_t read_entries(const uint8_t *at, size_t entries, uint64_t deadline,
                                 Message *message, size_t width)
{
    for (size_t k = 0; k < entries; k++) {
        uint64_t entry = get_due(at + width * k, width);
        if (entry == 0 || entry >= deadline)
            return 6;
        if (message)
            message->entries[k] = entry;
    }
    return 0;
}

/* Checks what stands behind the version and, where a message is given, fills it. */
FOR_A_WIDTH uint8_t read_fields(const uint8_t *frame, size_t length, Message *message,
                                size_t width)
{
    if (frame[SOURCE_AT] >= PANELS)
        return 4;
    uint64_t deadline = get_due(frame + DEADLINE_AT, width);
    if (deadline == 0)
        return 5;

    uint64_t mask = get64(frame + mask_at(width));
    size_t entries = (size_t)__builtin_popcountll(mask);
    size_t payload_at = entries_at(width) + width * entries + 1;
    if (length < payload_at)
        return 1;
    if (read_entries(frame + entries_at(width), entries, deadline, message, width) != 0)
        return 6;

    uint8_t payload_length = frame[payload_at - 1];
    if (payload_length > PAYLOAD_MAX)
        return 7;
    if (length < payload_at + payload_length)
        return 1;
    if (length > payload_at + payload_length)
        return 8;

    if (message) {
        message->source = frame[SOURCE_AT];
        message->deadline = deadline;
        message->mask = mask;
        message->length = payload_length;
        memcpy(message->payload, frame + payload_at, payload_length);
    }
    return 0;
}

/* Checks a frame and, where a message is given, fills it. */
static inline uint8_t read_frame(const uint8_t *frame, size_t length, Message *message)
{
    if (length < FRAME_MIN)
        return 1;
    if (memcmp(frame, frame_mark, sizeof frame_mark) != 0)
        return 2;
    switch (width_of(frame)) {
    case WIDTH_2:
        return length < FRAME_2_MIN ? 1 : read_fields(frame, length, message, WIDTH_2);
    case WIDTH_1:
        return read_fields(frame, length, message, WIDTH_1);
    default:
        return 3;
    }
}

/* Writes the frame of a readable message, whose deadline fits its version, and gives its length. */
FOR_A_WIDTH size_t write_frame(const Message *message, uint8_t *frame, size_t width)
{
    size_t entries = (size_t)__builtin_popcountll(message->mask);

    memcpy(frame, frame_mark, sizeof frame_mark);
    frame[VERSION_AT] = 0;
    frame[VERSION_AT + 1] = width == WIDTH_1 ? 1 : 2;
    frame[SOURCE_AT] = message->source;
    put_due(frame + DEADLINE_AT, message->deadline, width);
    put64(frame + mask_at(width), message->mask);

    uint8_t *at = frame + entries_at(width);
    for (size_t k = 0; k < entries; k++, at += width)
        put_due(at, message->entries[k], width);
    *at++ = message->length;
    memcpy(at, message->payload, message->length);
    return (size_t)(at - frame) + message->length;
}

#endif
