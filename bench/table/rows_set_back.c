/* Rows of a clock that is set back. */
#include "rows.h"

static void accepted_rows(void)
{
    empty();
    to_set_back(9);
    row("set back, 0 waiting", 0, 0);
    to_set_back(11);
    row("set back, the time stays, 0 waiting", 0, 0);
    chain(32);
    to_set_back(9);
    row("set back, 32 waiting", 0, 0);
    long_frames(32);
    to_set_back(9);
    row("set back, 32 waiting of 64 entries", 0, 0);
}

static void refused_rows(void)
{
    empty();
    to_set_back(9);
    now.panel.own = PANELS;
    row("set back refused, 26 by own number", 26, 0);
    chain(32);
    to_set_back(9);
    now.panel.slots[PANEL_SLOT_BYTES * 31 + 1]++;
    row("set back refused, 26 by the last of 32 waiting", 26, 0);
}

void set_back_rows(void)
{
    accepted_rows();
    refused_rows();
}
