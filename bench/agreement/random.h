/* Random numbers; with the same compiler the same seed gives the same ones. */
#ifndef RANDOM_H
#define RANDOM_H

#include <stdbool.h>
#include <stddef.h>
#include <stdint.h>

void random_start(uint64_t seed);

/* The seed that the numbers were started with. */
uint64_t random_seed(void);

uint64_t random_64(void);

/* Of any number of bits. */
uint64_t random_number(void);

/* Below count. */
uint32_t random_below(uint32_t count);

bool chance(uint32_t in_1000);

void random_bytes(uint8_t *bytes, size_t count);

/* The sum, held within 64 bits. */
uint64_t plus(uint64_t a, int64_t b);

#endif
