#include "checks.h"

#include <inttypes.h>
#include <stdio.h>
#include <stdlib.h>
#include <string.h>

const char *file, *part;

static unsigned long checks, failed;

bool fails(bool holds, int line, const char *what)
{
    checks++;
    if (holds)
        return false;
    failed++;
    printf("%s:%d: %s: %s", file, line, part, what);
    return true;
}

void same_number(int line, const char *what, uint64_t given, uint64_t expected)
{
    if (fails(given == expected, line, what))
        printf(" is %" PRIu64 ", expected %" PRIu64 "\n", given, expected);
}

void same_bytes(int line, const char *what, const void *given, const void *expected, size_t length,
                size_t start)
{
    const uint8_t *g = given, *e = expected;
    size_t i = 0;

    while (i < length && g[i] == e[i])
        i++;
    if (fails(i == length, line, what))
        printf(": byte %ld is %02x, expected %02x\n", (long)i - (long)start, g[i], e[i]);
}

static uint8_t digit(char c)
{
    return (uint8_t)(c <= '9' ? c - '0' : c - 'a' + 10);
}

/* Puts the number of 8 bytes that the digits stand for, the highest byte first, and gives where
   they end. */
static const char *put_number(uint8_t bytes[8], const char *digits)
{
    uint64_t number = 0;
    for (; *digits != '\0' && *digits != ' '; digits++)
        number = number << 4 | digit(*digits);
    for (int i = 7; i >= 0; i--, number >>= 8)
        bytes[i] = (uint8_t)number;
    return digits;
}

size_t put_bytes(uint8_t *bytes, const char *text)
{
    size_t length = 0;
    while (*text != '\0') {
        if (*text == ' ') {
            text++;
        } else if (*text == '+') {
            text = put_number(bytes + length, text + 1);
            length += 8;
        } else {
            bytes[length++] = (uint8_t)(digit(text[0]) << 4 | digit(text[1]));
            text += 2;
        }
    }
    return length;
}

/* One byte more, at the front: no block is empty. */
uint8_t *copy_of(const uint8_t *bytes, size_t length)
{
    uint8_t *block = malloc(1 + length);
    if (block == NULL)
        abort();
    memcpy(block + 1, bytes, length);
    return block + 1;
}

void free_copy(uint8_t *copy)
{
    free(copy - 1);
}

void paint(uint8_t *bytes, size_t length)
{
    for (size_t i = 0; i < length; i++)
        bytes[i] = (uint8_t)(i * 7 + 131);
}

int checked(void)
{
    printf("%lu checks, %lu failed\n", checks, failed);
    return failed == 0 ? EXIT_SUCCESS : EXIT_FAILURE;
}
