/* The calls that are measured, with their arguments. */
#include "case.h"

#include "../convert.h"

#include <string.h>

static void to_take(Kind kind, const Message *message)
{
    now.kind = kind;
    now.length = c_frame_write(message, now.bytes);
}

void to_check(const Message *message)
{
    to_take(CHECK, message);
}

void to_receive(const Message *message)
{
    to_take(RECEIVE, message);
}

void to_trace(const Message *message)
{
    to_take(TRACE, message);
}

void to_receive_and_read(const Message *message)
{
    to_take(RECEIVE_AND_READ, message);
}

void as_version_1(void)
{
    Message message;

    c_frame_read(now.bytes, now.length, &message);
    now.length = frame_1_write(&message, now.bytes);
}

static void take_bundle(Kind kind, Form form)
{
    now.kind = kind;
    now.length = 0;
    for (size_t i = 0; i < BUNDLE_FRAMES; i++) {
        uint8_t *at = now.bytes + now.length;
        Message message = form((uint8_t)(50 + i), 2000 + i);
        size_t length = c_frame_write(&message, at + 2);
        at[0] = (uint8_t)(length >> 8);
        at[1] = (uint8_t)length;
        now.length += 2 + length;
    }
}

void to_bundle(Form form)
{
    take_bundle(BUNDLE, form);
}

void to_receive_bundle(Form form)
{
    take_bundle(RECEIVE_BUNDLE, form);
}

void to_log(size_t count)
{
    now.kind = LOG;
    now.length = LOG_RECORD * count;
    memset(now.bytes, 1, now.length); /* source, length and each byte of a deadline are 1 */
}

/* The record at hand is the one that the call gives, so the call changes nothing. */
void to_fresh(uint8_t own)
{
    memset(&now, 0, sizeof now);
    now.kind = FRESH;
    now.own = own;
    now.panel.own = own < PANELS ? own : 0;
}

void to_send(uint8_t length, uint16_t lifetime)
{
    now.kind = SEND;
    now.length = length;
    now.lifetime = lifetime;
    memset(now.bytes, 0x4F, length);
}

void to_beacon(uint8_t length)
{
    to_send(length, 0);
    now.kind = BEACON;
}

void to_clock(uint64_t time)
{
    now.kind = CLOCK;
    now.time = time;
}

void to_set_back(uint64_t time)
{
    now.kind = SET_BACK;
    now.time = time;
}

void chain_and_send(size_t count)
{
    chain(count);
    now.panel.own = 62;
    now.panel.high = 499;
    memset(now.panel.marks, 0, sizeof now.panel.marks);
    memset(now.panel.barrier, 0, sizeof now.panel.barrier);
    to_send(32, 490);
}
