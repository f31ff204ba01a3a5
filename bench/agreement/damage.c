/* Damage to frames. */
#include "frames.h"

#include "../reference_frames.h"
#include "random.h"

#include <string.h>

/* Entries that the frame has, as far as its mask and length go. */
static size_t entries_of(const Bytes *frame, size_t width)
{
    size_t most = (frame->length - entries_at(width) - 1) / width; /* if no payload */
    size_t stated = (size_t)__builtin_popcountll(get64(frame->bytes + mask_at(width)));
    return stated < most ? stated : most;
}

/* 0, the deadline, or a number that differs from it in a bit. */
static void damage_entry(uint8_t *entry, const uint8_t *deadline, size_t width)
{
    if (chance(300))
        memset(entry, 0, width);
    else
        memcpy(entry, deadline, width);
    if (chance(300))
        entry[random_below((uint32_t)width)] ^= (uint8_t)(1u << random_below(8));
}

/* Another version, often the other one that is read. */
static void damage_version(uint8_t *version)
{
    if (chance(400))
        version[1] ^= 1 ^ 2;
    else
        version[random_below(2)] ^= (uint8_t)(1 + random_below(255));
}

static void damage_length(Bytes *frame)
{
    switch (random_below(4)) {
    case 0:
        frame->length = random_below((uint32_t)frame->length);
        break;
    case 1: {
        size_t more = 1 + (chance(500) ? 0 : random_below(100));
        random_bytes(frame->bytes + frame->length, more);
        frame->length += more;
        break;
    }
    case 2: { /* about the shortest frames of both versions */
        size_t few = FRAME_MIN - 1 + random_below(FRAME_2_MIN - FRAME_MIN + 2);
        if (frame->length > few)
            frame->length = few;
        break;
    }
    default:
        frame->length--;
        break;
    }
}

void damage(Bytes *frame)
{
    uint8_t *bytes = frame->bytes;
    size_t width = width_of(bytes);
    if (width == 0 || frame->length <= entries_at(width) || frame->length > FRAME_MAX)
        return;
    size_t entries = entries_of(frame, width);
    uint8_t *entry = bytes + entries_at(width), *length = entry + width * entries;
    uint32_t way = random_below(12);

    if (way == 0)
        bytes[random_below(VERSION_AT)] ^= (uint8_t)(1 + random_below(255));
    else if (way == 1)
        damage_version(bytes + VERSION_AT);
    else if (way == 2)
        bytes[SOURCE_AT] = (uint8_t)(64 + random_below(192));
    else if (way == 3)
        memset(bytes + DEADLINE_AT, 0, width);
    else if (way == 4)
        bytes[mask_at(width) + random_below(8)] ^= (uint8_t)(1u << random_below(8));
    else if (way == 5 && entries > 0)
        damage_entry(entry + width * random_below((uint32_t)entries), bytes + DEADLINE_AT, width);
    else if (way == 6)
        *length = (uint8_t)(33 + random_below(223));
    else if (way == 7)
        *length = (uint8_t)random_below(33);
    else if (way < 11)
        damage_length(frame);
    else
        bytes[random_below((uint32_t)frame->length)] ^= (uint8_t)(1u << random_below(8));
}
