/* Makes the bundles. */
#include "bundles.h"

#include <string.h>

/* Bytes of the deadline and of an entry, and of the shortest frame, in version 1 and 2; bytes of a
   frame of version 2 with one entry, and with 63 and the longest payload. */
enum { WIDTH_1 = 4, WIDTH_2 = 8, SHORT_1 = 19, SHORT_2 = 23 };
enum { ONE_ENTRY = SHORT_2 + WIDTH_2, PAYLOAD = 32, LONG = SHORT_2 + 63 * WIDTH_2 + PAYLOAD };

uint8_t bundle[BUNDLE];

/* Puts a number of so many bytes, the highest first. */
static uint8_t *put(uint8_t *at, size_t width, uint64_t number)
{
    for (size_t k = width; k-- > 0; number >>= 8)
        at[k] = (uint8_t)number;
    return at + width;
}

/* A frame behind its length, up to the entries; `more` bytes stand behind its mask. */
static uint8_t *put_head(uint8_t *at, size_t width, uint8_t source, uint64_t deadline,
                         uint64_t mask, size_t more)
{
    at = put(at, 2, 3 + 2 + 1 + width + 8 + more);
    memcpy(at, "DRY", 3);
    at = put(at + 3, 2, width == WIDTH_1 ? 1 : 2);
    at = put(at, 1, source);
    at = put(at, width, deadline);
    return put(at, 8, mask);
}

/* A frame of no entry, or of one of panel 1. It gives the bytes that it takes. */
static size_t put_frame(uint8_t *at, size_t width, uint8_t source, uint64_t deadline,
                        uint64_t entry)
{
    const uint8_t *start = at;

    at = put_head(at, width, source, deadline, entry ? 2 : 0, (entry ? width : 0) + 1);
    if (entry)
        at = put(at, width, entry);
    return (size_t)(put(at, 1, 0) - start);
}

size_t no_frames(void)
{
    return 0;
}

static size_t short_frames(size_t width, size_t length)
{
    size_t n = 0;
    for (uint64_t i = 0; n + 2 + length <= BUNDLE; i++)
        n += put_frame(bundle + n, width, (uint8_t)(1 + i % 63), 100 + i, 0);
    return n;
}

size_t each_handed(void)
{
    return short_frames(WIDTH_2, SHORT_2);
}

size_t each_of_version_1(void)
{
    return short_frames(WIDTH_1, SHORT_1);
}

/* A frame with an entry of each panel but 0, and the longest payload. */
static size_t put_long(uint8_t *at, uint8_t source, uint64_t deadline, uint64_t entry)
{
    const uint8_t *start = at;

    at = put_head(at, WIDTH_2, source, deadline, UINT64_MAX - 1, 63 * WIDTH_2 + 1 + PAYLOAD);
    for (int k = 0; k < 63; k++)
        at = put(at, WIDTH_2, entry);
    at = put(at, 1, PAYLOAD);
    memset(at, 'x', PAYLOAD);
    return (size_t)(at + PAYLOAD - start);
}

size_t long_handed(void)
{
    size_t n = 0;
    for (uint8_t s = 1; s < 64; s++)
        n += put_frame(bundle + n, WIDTH_2, s, 100, 0);
    for (uint64_t i = 0; n + 2 + LONG <= BUNDLE; i++)
        n += put_long(bundle + n, (uint8_t)(1 + i % 63), 200 + i, 100);
    return n;
}

size_t in_turns(void)
{
    size_t n = 0;
    for (uint64_t turn = 1; n + 33 * (2 + ONE_ENTRY) <= BUNDLE; turn++) {
        for (uint64_t i = 0; i < 32; i++)
            n += put_frame(bundle + n, WIDTH_2, (uint8_t)(2 + i), 100 * turn + i + 1, 100 * turn);
        n += put_frame(bundle + n, WIDTH_2, 1, 100 * turn, 0);
    }
    return n;
}

size_t all_wait(void)
{
    size_t n = 0;
    for (uint64_t i = 0; n + 2 + ONE_ENTRY <= BUNDLE; i++)
        n += put_frame(bundle + n, WIDTH_2, (uint8_t)(2 + i % 62), 101 + i, 100);
    return n;
}

size_t one_again(void)
{
    size_t n = 0;
    while (n + 2 + SHORT_2 <= BUNDLE)
        n += put_frame(bundle + n, WIDTH_2, 1, 100, 0);
    return n;
}
