/* Random records of the library. */
#ifndef RECORDS_H
#define RECORDS_H

#include <panel.h>

/* Any record with marks under high, garbage behind the list and the frames. */
void random_panel(Panel *panel);

/*
 * Waiting messages in a chain or in a few chains, in any order; what their
 * first ones wait for is below the deadlines and above the time.
 */
void random_chain(Panel *panel);

/* Spoils a record, or leaves it at the edge of what is allowed. */
void damage_panel(Panel *panel);

#endif
