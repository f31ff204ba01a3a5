/* Agreement: random calls on panels in play and on odd records. */
#include "../parts.h"

#include "../convert.h"
#include "../reference_frames.h"
#include "both.h"
#include "random.h"
#include "records.h"

#include <string.h>

/* The bytes as a call is given them. */
static Slice slice_of(const Bytes *bytes)
{
    return (Slice){bytes->bytes, bytes->length};
}

/* The deadline of a waiting message, or high if there is none. */
static uint64_t some_deadline(const Panel *panel)
{
    if (panel->count == 0 || panel->count > WAITING_MAX)
        return panel->high;
    size_t place = random_below((uint32_t)panel->count);
    return get64(panel->slots + PANEL_SLOT_BYTES * place + 2 + DEADLINE_AT);
}

/* A reading about a deadline; mostly, if that is far ahead, about the first at which it is not. */
static uint64_t reading_about(const Panel *panel, uint64_t deadline)
{
    uint64_t near = plus(deadline, -PANEL_FARTHEST_AHEAD);
    int64_t off = (int64_t)random_below(3) - 1;

    if (near != 0 && near + 1 >= panel->time && chance(800))
        return plus(near, off);
    return plus(deadline, off);
}

static uint64_t random_reading(const Panel *panel)
{
    uint32_t way = random_below(1000);
    if (way < 100)
        return panel->time;
    if (way < 600)
        return plus(panel->time, random_below(20));
    if (way < 750)
        return plus(panel->time, random_below(1500));
    if (way < 900)
        return reading_about(panel, some_deadline(panel));
    if (way < 990)
        return plus(panel->time, -1 - (chance(500) ? 0 : (int64_t)random_below(2000)));
    return way < 997 ? random_number() : UINT64_MAX - random_below(2);
}

/* Mostly below the time, in steps as those of a clock, or about the floor or a deadline. */
static uint64_t random_set_back(const Panel *panel)
{
    uint32_t way = random_below(100);
    int64_t off = (int64_t)random_below(3) - 1;
    if (way < 10)
        return panel->time;
    if (way < 40)
        return plus(panel->time, -1 - (int64_t)random_below(20));
    if (way < 65)
        return plus(panel->time, -1 - (int64_t)random_below(1500));
    if (way < 75)
        return plus(panel->floor, off);
    if (way < 85)
        return plus(some_deadline(panel), off);
    if (way < 92)
        return plus(panel->time, 1 + random_below(2000));
    return way < 96 ? 0 : random_number();
}

static uint16_t random_lifetime(const Panel *panel)
{
    uint32_t way = random_below(100);
    if (panel->time > UINT64_MAX - 60000 && chance(200)) /* about the last deadline */
        return (uint16_t)(UINT64_MAX - panel->time + random_below(3));
    if (way < 15)
        return 0;
    if (way < 75)
        return (uint16_t)(1 + random_below(60));
    if (way < 95)
        return (uint16_t)(1 + random_below(2000));
    return (uint16_t)random_64();
}

/* A send, or now and then a beacon. */
static void random_send(Panel *panel, Record *record)
{
    Bytes frame;
    uint8_t payload[400];
    size_t length = random_below(33);

    random_bytes(payload, sizeof payload);
    if (chance(60))
        length = chance(500) ? 33 : 33 + random_below(300);
    else if (chance(100))
        length = 32;
    if (chance(200))
        both_beacon(panel, record, (Slice){payload, length}, &frame);
    else
        both_send(panel, record, (Slice){payload, length}, random_lifetime(panel), &frame);
    if (frame.length > 0)
        remember_frame(&frame);
}

static void random_receive(Panel *panel, Record *record)
{
    Bytes frame;
    random_frame(&frame, panel);
    if (chance(100))
        both_check(slice_of(&frame));
    if (chance(250))
        both_trace(panel, record, slice_of(&frame));
    both_receive(panel, record, slice_of(&frame));
}

static void random_call(Panel *panel, Record *record)
{
    uint32_t way = random_below(100);
    if (way < 22)
        random_send(panel, record);
    else if (way < 80)
        random_receive(panel, record);
    else if (way < 96)
        both_clock(panel, record, random_reading(panel));
    else
        both_set_back(panel, record, random_set_back(panel));
}

/* What makes the first of a chain ready: its message, or time. */
static void start_chain(Panel *panel, Record *record)
{
    Bytes frame;

    if (chance(500)) {
        Message message;
        random_message(&message, panel, 62, 150, 0);
        frame.length = c_frame_write(&message, frame.bytes);
        both_receive(panel, record, slice_of(&frame));
    } else if (chance(500)) {
        both_clock(panel, record, 151 + random_below(30));
    } else {
        uint8_t payload[32] = {0};
        panel->own = record->own = 62;
        both_send(panel, record, (Slice){payload, random_below(33)},
                  (uint16_t)(150 - panel->time), &frame);
    }
}

enum { IN_PLAY = 8 };

static Panel panels[IN_PLAY];
static Record records[IN_PLAY];
static uint32_t in_play;

/* Some fresh panels, often with clocks that are far on. */
static void start_world(void)
{
    in_play = 2 + random_below(IN_PLAY - 1);
    uint8_t first = (uint8_t)random_below(PANELS);
    uint8_t step = (uint8_t)(1 + 2 * random_below(32)); /* odd: no number twice */
    bool any = chance(100);
    for (uint32_t i = 0; i < in_play; i++) {
        uint8_t own = (uint8_t)((first + step * i) % PANELS);
        both_fresh(any ? (uint8_t)random_below(PANELS) : own, &panels[i], &records[i]);
    }
    if (chance(750))
        forget_frames();

    uint32_t way = random_below(100);
    uint64_t time = way < 60 ? 0
                  : way < 72 ? UINT32_MAX - random_below(6000) /* deadlines on both sides of it */
                  : way < 85 ? UINT64_MAX - random_below(6000)
                             : random_number();
    if (time != 0) {
        for (uint32_t i = 0; i < in_play; i++)
            both_clock(&panels[i], &records[i], plus(time, random_below(50)));
    }
}

static void odd_calls(void)
{
    static Panel panel;
    static Record record;
    const Panel *some = &panels[random_below(in_play)];
    uint32_t way = random_below(100);

    if (way < 5) {
        both_fresh((uint8_t)random_64(), &panel, &record);
        return;
    }
    if (way < 20) {
        Bytes frame;
        random_frame(&frame, some);
        both_check(slice_of(&frame));
        both_readers(some);
        return;
    }
    if (way < 45) { /* a copy of a panel in play, spoilt */
        memcpy(&panel, some, sizeof panel);
        damage_panel(&panel);
    } else if (way < 60) {
        random_chain(&panel);
        record_of_panel(&panel, &record);
        start_chain(&panel, &record);
    } else {
        random_panel(&panel);
        if (chance(300))
            damage_panel(&panel);
    }
    record_of_panel(&panel, &record);
    for (uint32_t more = 1 + random_below(4); more > 0; more--)
        random_call(&panel, &record);
}

void agreement_part(unsigned long calls, uint64_t seed)
{
    random_start(seed);
    unsigned long next_world = 0;
    while (calls_made < calls) {
        if (calls_made >= next_world) {
            start_world();
            next_world = calls_made + 100 + random_below(1500);
        }
        if (chance(150)) {
            odd_calls();
        } else {
            uint32_t i = random_below(in_play);
            random_call(&panels[i], &records[i]);
        }
    }
    print_seen();
}
