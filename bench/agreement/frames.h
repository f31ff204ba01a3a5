/* Random messages and frames, for a panel that is to receive them. */
#ifndef FRAMES_H
#define FRAMES_H

#include "../reference.h"

#include <panel.h>

enum { BYTES_MAX = FRAME_MAX + 128 }; /* a frame, and what damage may add */

typedef struct {
    size_t length;
    uint8_t bytes[BYTES_MAX];
} Bytes;

/* Keeps a frame that was sent, for random_frame to give it again. */
void remember_frame(const Bytes *frame);
void forget_frames(void);

uint64_t random_mask(void);

/* A readable message; its entries lie about the marks, about the time and about the floor. */
void random_message(Message *message, const Panel *panel, uint8_t source,
                    uint64_t deadline, uint64_t mask);

/* Makes a frame that is readable, and whose deadline fits 32 bits, one of version 1. */
void make_version_1(Bytes *frame);

/* Spoils a frame of either version in one way, mostly by a single field. */
void damage(Bytes *frame);

void random_frame(Bytes *frame, const Panel *panel);

#endif
