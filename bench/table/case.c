/* The messages and records of the calls that are measured. */
#include "case.h"

#include "../convert.h"

#include <string.h>

Case now;

/* ---- Messages ---- */

Message plain(uint8_t source, uint64_t deadline, uint8_t length)
{
    Message message;
    memset(&message, 0, sizeof message);
    message.source = source;
    message.deadline = deadline;
    message.length = length;
    for (int i = 0; i < length; i++)
        message.payload[i] = (uint8_t)(source + i + 1);
    return message;
}

void entry(Message *message, uint8_t source, uint64_t deadline)
{
    message->entries[__builtin_popcountll(message->mask)] = deadline;
    message->mask |= (uint64_t)1 << source;
}

/* With the entry of each panel from first to last. */
static Message with_entries(Message message, uint8_t first, uint8_t last, uint64_t deadline)
{
    for (uint8_t source = first; source <= last; source++)
        entry(&message, source, deadline);
    return message;
}

Message usual(uint8_t source, uint64_t deadline)
{
    return with_entries(plain(source, deadline, 32), 40, 42, 590);
}

Message early(uint8_t source, uint64_t deadline)
{
    return with_entries(usual(source, deadline), 61, 61, 700);
}

Message middle(uint8_t source, uint64_t deadline)
{
    return with_entries(plain(source, deadline, 16), 47, 62, 500);
}

Message longest(uint8_t source, uint64_t deadline)
{
    return with_entries(plain(source, deadline, 32), 0, 63, 500);
}

/* ---- Records ---- */

void empty(void)
{
    memset(&now, 0, sizeof now);
    now.panel.own = 63;
    now.panel.time = 10;
    now.panel.high = 600;
    for (int source = 40; source < 43; source++)
        now.panel.marks[source] = now.panel.barrier[source] = 600;
    now.output_length = OUTPUT_MIN;
    now.frame_length = FRAME_MAX;
}

/* Puts a message behind those that wait. */
static void add(const Message *message)
{
    slot_write(&now.panel, now.panel.count++, message);
}

static Message linked(size_t place)
{
    Message message = plain((uint8_t)place, 1000 + place, (uint8_t)(place % 33));

    if (place == 0)
        entry(&message, 62, 500);
    else
        entry(&message, (uint8_t)(place - 1), 1000 + place - 1);
    return message;
}

void chain(size_t count)
{
    empty();
    for (size_t i = count; i > 0; i--) {
        Message message = linked(i - 1);
        add(&message);
    }
}

void rising_chain(size_t count)
{
    empty();
    for (size_t i = 0; i < count; i++) {
        Message message = linked(i);
        add(&message);
    }
}

void one_of(size_t count)
{
    Message first = plain(0, 600, 32);

    empty();
    entry(&first, 62, 500);
    add(&first);
    for (size_t i = 1; i < count; i++) {
        Message message = early((uint8_t)i, 1000 + i);
        add(&message);
    }
}

/* A record that has had 600 of each panel but 62, and messages of one form that wait for it. */
static void alike(size_t count, Form form)
{
    empty();
    for (int source = 0; source < PANELS; source++)
        now.panel.marks[source] = source == 62 ? 0 : 600;
    for (size_t i = 0; i < count; i++) {
        Message message = form((uint8_t)i, 1000 + i);
        add(&message);
    }
}

void middle_frames(size_t count)
{
    alike(count, middle);
}

void long_frames(size_t count)
{
    alike(count, longest);
}
