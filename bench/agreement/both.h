/*
 * Calls of both sides with the same arguments, in place on a record of each.
 * At the first difference the program ends with 1.
 */
#ifndef BOTH_H
#define BOTH_H

#include "frames.h"

extern unsigned long calls_made;

void both_fresh(uint8_t own, Panel *panel, Record *record);

/* Puts the frame into *frame, with length 0 if refused. */
void both_send(Panel *panel, Record *record, Slice payload, uint16_t lifetime, Bytes *frame);
void both_beacon(Panel *panel, Record *record, Slice payload, Bytes *frame);
void both_receive(Panel *panel, Record *record, Slice frame);
void both_clock(Panel *panel, Record *record, uint64_t time);
void both_set_back(Panel *panel, Record *record, uint64_t reading);
void both_trace(const Panel *panel, const Record *record, Slice frame);
void both_check(Slice frame);

/* ---- The readers; they are no part of the count of calls ---- */

/* Reads the record of that index in a log. */
void both_log(Slice log, size_t index);

/* Goes through a bundle from that place on, to its end or until it is broken. */
void both_bundle(Slice bundle, size_t place);

/* Reads a random log, and a random bundle for a panel. */
void both_readers(const Panel *panel);

/* Prints how often each answer came. */
void print_seen(void);

#endif
