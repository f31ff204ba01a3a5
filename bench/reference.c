/*
 * The hand-written side: the calls. Its parts stand in two headers, so that the
 * compiler has all of it before it.
 */
#include "reference.h"

#include "reference_frames.h"
#include "reference_record.h"

enum { DEFAULT_LIFETIME = 7200, BEACON_LIFETIME = 1200, FARTHEST_AHEAD = 1209600 };

uint8_t c_frame_check(const uint8_t *frame, size_t length)
{
    return read_frame(frame, length, NULL);
}

uint8_t c_frame_read(const uint8_t *frame, size_t length, Message *message)
{
    return read_frame(frame, length, message);
}

size_t c_frame_write(const Message *message, uint8_t *frame)
{
    return write_frame(message, frame, WIDTH_2);
}

uint8_t c_fresh(Record *record, uint8_t own)
{
    memset(record, 0, sizeof *record);
    if (own >= PANELS)
        return 11;
    record->own = own;
    return 0;
}

/* The message that a send makes, with the barrier entries as they are, and the floor that it gives
   when it is handed. */
static uint64_t compose(const Record *record, Slice payload, uint64_t deadline, Message *message)
{
    uint64_t mask = 0;
    size_t entries = 0;
    uint64_t floor = record->floor;

    for (int s = 0; s < PANELS; s++) {
        uint64_t entry = record->barrier[s];
        if (entry != 0) {
            mask |= (uint64_t)1 << s;
            message->entries[entries++] = entry;
            if (goes_without(record, s, entry))
                floor = larger(floor, entry);
        }
    }
    message->source = record->own;
    message->deadline = deadline;
    message->mask = mask;
    message->length = (uint8_t)payload.length;
    memcpy(message->payload, payload.bytes, payload.length);
    return floor;
}

uint8_t c_send(Record *record, Slice payload, uint16_t lifetime, Buffer output,
               Buffer buffer, Written *written)
{
    *written = (Written){0, 0};
    if (!sound(record))
        return 26;
    if (output.length < OUTPUT_MIN || buffer.length < FRAME_MAX)
        return 10;
    if (payload.length > PAYLOAD_MAX)
        return 9;

    uint64_t seconds = lifetime ? lifetime : DEFAULT_LIFETIME;
    if (record->time > UINT64_MAX - seconds || record->high == UINT64_MAX)
        return 24;

    Message message;
    uint64_t deadline = larger(record->time + seconds, record->high + 1);
    uint64_t floor = compose(record, payload, deadline, &message);
    written->length = c_frame_write(&message, buffer.bytes);
    memset(record->barrier, 0, sizeof record->barrier);
    record->floor = floor;
    put_in_log(record, &message, output.bytes); /* handed: no barrier entry is left to remove */
    written->count = settle(record, output.bytes, 1);
    return 0;
}

uint8_t c_beacon(Record *record, Slice payload, Buffer output, Buffer buffer,
                 Written *written)
{
    return c_send(record, payload, BEACON_LIFETIME, output, buffer, written);
}

uint8_t c_receive(Record *record, Slice frame, Buffer output, Written *written)
{
    *written = (Written){0, 0};
    if (!sound(record))
        return 26;
    if (output.length < OUTPUT_MIN)
        return 10;

    Message message;
    uint8_t number = c_frame_read(frame.bytes, frame.length, &message);
    if (number != 0)
        return number;
    if (message.source == record->own)
        return 20;
    if (lapsed(record, message.deadline))
        return 21;
    if (message.deadline - record->time > FARTHEST_AHEAD)
        return 32;
    if (message.deadline <= record->marks[message.source] || is_waiting(record, &message))
        return 22;

    size_t handed = 0;
    if (ready(record, &message)) {
        hand(record, &message, output.bytes);
        handed = 1;
    } else {
        if (record->count == WAITING_MAX)
            return 23;
        record->waiting[record->count++] = message;
    }
    written->count = settle(record, output.bytes, handed);
    return 0;
}

uint8_t c_clock(Record *record, uint64_t time, Buffer output, Written *written)
{
    *written = (Written){0, 0};
    if (!sound(record))
        return 26;
    if (output.length < OUTPUT_MIN)
        return 10;
    if (time < record->time)
        return 25;

    record->time = time;
    size_t kept = 0;
    for (size_t i = 0; i < record->count; i++) {
        if (lapsed(record, record->waiting[i].deadline))
            continue;
        if (i != kept)
            record->waiting[kept] = record->waiting[i];
        kept++;
    }
    record->count = kept;
    written->count = settle(record, output.bytes, 0);
    return 0;
}

uint8_t c_set_back(Record *record, uint64_t reading)
{
    if (!sound(record))
        return 26;
    if (reading < record->time)
        record->time = reading;
    return 0;
}

/* The last checks of a receive, in its order. They stand twice, as the receive that is measured
   becomes other code if both share them. */
static uint8_t number_of_trace(const Record *record, const Message *message, bool is_ready)
{
    if (message->source == record->own)
        return 20;
    if (lapsed(record, message->deadline))
        return 21;
    if (message->deadline - record->time > FARTHEST_AHEAD)
        return 32;
    if (message->deadline <= record->marks[message->source] || is_waiting(record, message))
        return 22;
    return !is_ready && record->count == WAITING_MAX ? 23 : 0;
}

Trace c_trace(const Record *record, Slice frame)
{
    Message message;
    bool whole = sound(record);
    uint8_t number = c_frame_read(frame.bytes, frame.length, &message);
    if (number != 0)
        return (Trace){whole ? number : 26, false, 0};

    size_t visited = 0;
    bool is_ready = visit(record, &message, &visited);
    number = whole ? number_of_trace(record, &message, is_ready) : 26;
    return (Trace){number, is_ready, visited};
}

LogRecord c_log_record(Slice log, size_t index)
{
    LogRecord none = {log.bytes, 0, 0, 0};
    if (index >= log.length / LOG_RECORD)
        return none;

    const uint8_t *at = log.bytes + LOG_RECORD * index;
    LogRecord record = {at + LOG_PAYLOAD_AT, get64(at + LOG_DEADLINE_AT), at[0],
                        at[LOG_LENGTH_AT]};
    return record.deadline != 0 && record.length <= PAYLOAD_MAX ? record : none;
}

BundleStep c_bundle_next(Bundle *bundle, Slice *frame)
{
    *frame = (Slice){bundle->bytes.bytes, 0};
    if (bundle->place == bundle->bytes.length)
        return BUNDLE_END;
    if (bundle->place > bundle->bytes.length || bundle->bytes.length - bundle->place < 2)
        return BUNDLE_BROKEN;

    const uint8_t *at = bundle->bytes.bytes + bundle->place;
    size_t length = (size_t)at[0] << 8 | at[1];
    if (bundle->bytes.length - bundle->place - 2 < length)
        return BUNDLE_BROKEN;
    *frame = (Slice){at + 2, length};
    bundle->place += 2 + length;
    return BUNDLE_FRAME;
}
