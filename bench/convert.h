/* From the library's record (frames in slots) to the reference's, and back; old frames. */
#ifndef CONVERT_H
#define CONVERT_H

#include "reference.h"

#include <panel.h>

/* Both records are the same in front of the waiting messages, and behind them. */
enum { FRONT = offsetof(Panel, slots), BACK = sizeof(Panel) - offsetof(Panel, floor) };

/* A slot without a readable frame becomes a message that is not readable. */
void record_of_panel(const Panel *panel, Record *record);

/* Writes the frame of version 1 of a readable message, whose deadline has to fit 32 bits, and gives
   its length. */
size_t frame_1_write(const Message *message, uint8_t *frame);

/* Puts a readable message into a slot, and gives the bytes that it takes there. */
size_t slot_write(Panel *panel, size_t place, const Message *message);

#endif
