/* What the tests in C share. */
#ifndef CHECKS_H
#define CHECKS_H

#include <stdbool.h>
#include <stddef.h>
#include <stdint.h>

/* The file of the tests, which lines are of, and what is tested at the moment, for printing. */
extern const char *file, *part;

/* Counts a check. Of one that fails it prints place and name; the caller prints the difference. */
bool fails(bool holds, int line, const char *what);

void same_number(int line, const char *what, uint64_t given, uint64_t expected);

/* `start` is the place that counts as byte 0 in what is printed. */
void same_bytes(int line, const char *what, const void *given, const void *expected, size_t length,
                size_t start);

/* Puts the bytes that a text in lower-case hexadecimal stands for, and gives how many they are.
   Blanks in the text are passed over. Digits behind a + are a number of 8 bytes: +64 is the same as
   0000000000000064. */
size_t put_bytes(uint8_t *bytes, const char *text);

/* A copy of some bytes that ends with its block: valgrind sees a read behind it. */
uint8_t *copy_of(const uint8_t *bytes, size_t length);
void free_copy(uint8_t *copy);

/* Fills bytes with a content that shows their place. */
void paint(uint8_t *bytes, size_t length);

/* Prints how many checks there were, and gives what main is to return. */
int checked(void);

/* The tests of the files of these names. */
void test_calls(void);
void test_frames(void);
void test_versions(void);
void test_readers(void);

#endif
