/*
 * What the compiler has to warn of. tests/run.sh compiles this file as it is, which gives no
 * warning, and then once with each of the names that stand in its conditions, which does.
 */
#include "panel.h"

int must_pass_on(PanelNumber number);
void hand_on(Panel *panel, uint8_t *output);
void lower(Panel *panel);
void look_at(const Panel *panel, const uint8_t *frame);
PanelNumber check_none(void);

int must_pass_on(PanelNumber number)
{
    switch (number) {
    case PANEL_ACCEPTED:
        return 1;
    case PANEL_REFUSED_FRAME_SHORT:
    case PANEL_REFUSED_FRAME_MARK:
    case PANEL_REFUSED_FRAME_VERSION:
    case PANEL_REFUSED_FRAME_SOURCE:
    case PANEL_REFUSED_FRAME_DEADLINE:
    case PANEL_REFUSED_FRAME_ENTRY:
    case PANEL_REFUSED_FRAME_PAYLOAD_LENGTH:
    case PANEL_REFUSED_FRAME_LEFT_OVER:
    case PANEL_REFUSED_PAYLOAD_LONG:
    case PANEL_REFUSED_BUFFER_SHORT:
    case PANEL_REFUSED_PANEL_NUMBER:
    case PANEL_REFUSED_OWN_SOURCE:
    case PANEL_REFUSED_LAPSED:
    case PANEL_REFUSED_HAD_ALREADY:
#ifndef CASE_LEFT_OUT
    case PANEL_REFUSED_LIST_FULL:
#endif
    case PANEL_REFUSED_DEADLINE_TOO_HIGH:
    case PANEL_REFUSED_CLOCK_BACK:
    case PANEL_REFUSED_RECORD_BROKEN:
    case PANEL_REFUSED_TOO_FAR_AHEAD:
        return 0;
    }
    return 0;
}

void hand_on(Panel *panel, uint8_t *output)
{
#ifdef ANSWER_NOT_LOOKED_AT
    panel_clock(panel, 1, output, PANEL_OUTPUT_MIN);
#else
    (void)panel, (void)output;
#endif
}

void lower(Panel *panel)
{
#ifdef SET_BACK_NOT_LOOKED_AT
    panel_set_back(panel, 1);
#else
    (void)panel;
#endif
}

void look_at(const Panel *panel, const uint8_t *frame)
{
#ifdef TRACE_NOT_LOOKED_AT
    panel_trace(panel, frame, PANEL_FRAME_MIN);
#else
    (void)panel, (void)frame;
#endif
}

PanelNumber check_none(void)
{
#ifdef NULL_POINTER
    return panel_frame_check(NULL, 0);
#else
    return panel_frame_check((const uint8_t *)"", 0);
#endif
}
