/* Bundles for the program "list", of frames of version 2 where no other is named. */
#ifndef BUNDLES_H
#define BUNDLES_H

#include <stddef.h>
#include <stdint.h>

enum { BUNDLE = 65535 }; /* bytes at most */

/* Each of the functions fills it from its start, and gives how many bytes it has. */
extern uint8_t bundle[BUNDLE];

size_t no_frames(void);

/* Frames that are each handed at once; the last bytes are left over. */
size_t each_handed(void);

/* The same of version 1. */
size_t each_of_version_1(void);

/* A short frame of each panel, then long ones: all are handed at once. */
size_t long_handed(void);

/* Turns of 32 that wait for one of panel 1, and that one. */
size_t in_turns(void);

/* Frames that wait: the first 32 are taken, the others refused with 23. */
size_t all_wait(void);

/* The same frame again and again: refused with 22. */
size_t one_again(void);

#endif
