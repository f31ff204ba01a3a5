/* Reads the library's record into the reference's; fills slots; writes version 1. */
#include "convert.h"

#include "reference_frames.h"

_Static_assert(FRONT == offsetof(Record, waiting), "front");
_Static_assert(BACK == sizeof(Record) - offsetof(Record, floor), "back");
_Static_assert(offsetof(Panel, own) == offsetof(Record, own), "own");
_Static_assert(offsetof(Panel, time) == offsetof(Record, time), "time");
_Static_assert(offsetof(Panel, high) == offsetof(Record, high), "high");
_Static_assert(offsetof(Panel, count) == offsetof(Record, count), "count");
_Static_assert(offsetof(Panel, marks) == offsetof(Record, marks), "marks");
_Static_assert(offsetof(Panel, barrier) == offsetof(Record, barrier), "barrier");

/*
 * Damage that the fields can show (source, entries, payload length) is
 * carried over; any other damage, as version 1, is shown by deadline 0.
 */
static void message_of_slot(const uint8_t *slot, Message *message)
{
    size_t length = (size_t)slot[0] << 8 | slot[1];
    const uint8_t *frame = slot + 2, *at = frame + entries_at(WIDTH_2);

    memset(message, 0, sizeof *message);
    uint8_t number = length > FRAME_MAX ? 8 : c_frame_read(frame, length, message);
    bool version_2 = width_of(frame) == WIDTH_2;
    if (number == 0 && version_2)
        return;

    memset(message, 0, sizeof *message);
    if (!version_2 || (number != 4 && number != 6 && number != 7))
        return;
    message->source = frame[SOURCE_AT];
    message->deadline = get64(frame + DEADLINE_AT);
    if (number == 4) {
        message->deadline |= 1;
        return;
    }
    message->mask = get64(frame + mask_at(WIDTH_2));
    size_t entries = (size_t)__builtin_popcountll(message->mask);
    for (size_t k = 0; k < entries; k++, at += WIDTH_2)
        message->entries[k] = get64(at);
    message->length = *at;
}

void record_of_panel(const Panel *panel, Record *record)
{
    memset(record, 0, sizeof *record);
    memcpy(record, panel, FRONT);
    memcpy((uint8_t *)record + offsetof(Record, floor),
           (const uint8_t *)panel + offsetof(Panel, floor), BACK);
    for (size_t i = 0; i < panel->count && i < WAITING_MAX; i++)
        message_of_slot(panel->slots + PANEL_SLOT_BYTES * i, &record->waiting[i]);
}

size_t frame_1_write(const Message *message, uint8_t *frame)
{
    return write_frame(message, frame, WIDTH_1);
}

size_t slot_write(Panel *panel, size_t place, const Message *message)
{
    uint8_t *slot = panel->slots + PANEL_SLOT_BYTES * place;
    size_t length = c_frame_write(message, slot + 2);
    slot[0] = (uint8_t)(length >> 8);
    slot[1] = (uint8_t)length;
    return 2 + length;
}
