/* Random numbers (splitmix64), random bytes, and a sum held in 64 bits. */
#include "random.h"

#include <string.h>

static uint64_t started_with;
static uint64_t state;

void random_start(uint64_t seed)
{
    started_with = state = seed;
}

uint64_t random_seed(void)
{
    return started_with;
}

uint64_t random_64(void)
{
    uint64_t z = (state += 0x9E3779B97F4A7C15u);
    z = (z ^ z >> 30) * 0xBF58476D1CE4E5B9u;
    z = (z ^ z >> 27) * 0x94D049BB133111EBu;
    return z ^ z >> 31;
}

uint32_t random_below(uint32_t count)
{
    return (uint32_t)((random_64() >> 32) * count >> 32);
}

bool chance(uint32_t in_1000)
{
    return random_below(1000) < in_1000;
}

uint64_t random_number(void)
{
    return random_64() >> random_below(64);
}

void random_bytes(uint8_t *bytes, size_t count)
{
    while (count >= 8) {
        uint64_t eight = random_64();
        memcpy(bytes, &eight, 8);
        bytes += 8;
        count -= 8;
    }
    for (; count > 0; count--)
        *bytes++ = (uint8_t)random_64();
}

uint64_t plus(uint64_t a, int64_t b)
{
    uint64_t sum = a + (uint64_t)b;
    if (b < 0)
        return sum > a ? 0 : sum;
    return sum < a ? UINT64_MAX : sum;
}
