/* Random records: any content, chains of waiting messages, damaged ones. */
#include "records.h"

#include "../convert.h"
#include "frames.h"
#include "random.h"

#include <string.h>

/* Any bytes in the slots and between the fields, whose numbers are 0. */
static void any_bytes(Panel *panel)
{
    random_bytes((uint8_t *)panel, sizeof *panel);
    panel->own = 0;
    panel->time = panel->high = panel->floor = 0;
    panel->count = 0;
    memset(panel->marks, 0, sizeof panel->marks);
    memset(panel->barrier, 0, sizeof panel->barrier);
}

void random_panel(Panel *panel)
{
    any_bytes(panel);
    panel->own = (uint8_t)random_below(PANELS);
    panel->time = chance(850) ? random_below(60)
                : chance(500) ? UINT32_MAX - random_below(80)
                              : UINT64_MAX - random_below(80);
    /* deadlines lie about the time, or about the farthest that is taken */
    uint64_t about = plus(panel->time, chance(850) ? 0 : PANEL_FARTHEST_AHEAD);
    for (int s = 0; s < PANELS; s++) {
        if (chance(400))
            panel->marks[s] = plus(about, (int64_t)random_below(100) - 50);
        if (chance(400)) /* half of them at the mark, near which entries of frames lie */
            panel->barrier[s] = chance(500) ? panel->marks[s]
                                            : plus(about, (int64_t)random_below(100) - 50);
        if (panel->high < panel->marks[s])
            panel->high = panel->marks[s];
        if (panel->high < panel->barrier[s])
            panel->high = panel->barrier[s];
    }
    if (chance(400))
        panel->floor = chance(950) ? plus(about, (int64_t)random_below(100) - 60)
                                   : UINT64_MAX - random_below(2);
    panel->count = chance(300) ? 32 : random_below(33);
    for (size_t i = 0; i < panel->count; i++) {
        Message message;
        uint64_t deadline = plus(about, (int64_t)random_below(100) - 20);
        uint64_t mask = random_mask();
        uint8_t source = (uint8_t)random_below(chance(500) ? 64 : 4);
        random_message(&message, panel, source, deadline, mask);
        slot_write(panel, i, &message);
        /* now and then the same message again, with another payload */
        if (i + 1 < panel->count && chance(60)) {
            random_bytes(message.payload, message.length);
            slot_write(panel, ++i, &message);
        }
    }
}

void random_chain(Panel *panel)
{
    uint8_t place[WAITING_MAX];
    uint64_t last_deadline = 0;
    uint8_t last_source = 0;

    any_bytes(panel);
    panel->own = (uint8_t)random_below(PANELS);
    panel->time = 100 + random_below(10);
    panel->floor = chance(700) ? 0 : 90 + random_below(70);
    panel->count = chance(600) ? 32 : 1 + random_below(32);
    for (size_t i = 0; i < panel->count; i++) {
        size_t j = random_below((uint32_t)i + 1);
        place[i] = place[j];
        place[j] = (uint8_t)i;
    }
    uint32_t step = random_below(2); /* 0: all deadlines close together */
    uint64_t deadline = 200;
    for (size_t i = 0; i < panel->count; i++) {
        Message message;
        deadline += step + random_below(3) / 2;
        random_message(&message, panel, (uint8_t)random_below(PANELS), deadline, 0);
        message.mask = (uint64_t)1 << last_source;
        message.entries[0] = last_deadline;
        if (last_deadline == 0 || last_deadline >= message.deadline || chance(20)) {
            message.mask = (uint64_t)1 << 62;
            message.entries[0] = 150 + (chance(900) ? 0 : random_below(30));
        }
        last_source = message.source;
        last_deadline = message.deadline;
        slot_write(panel, place[i], &message);
    }
}

/* Another length in front of the frame, or the frame itself spoilt, or its version 1. */
static void damage_slot(uint8_t *slot)
{
    Bytes frame;
    uint32_t n = (uint32_t)slot[0] << 8 | slot[1];

    if (chance(250)) {
        if (chance(500))
            n += chance(500) ? 1 : UINT32_MAX;
        else
            n = chance(500) ? FRAME_MAX - 1 + random_below(5) : (uint32_t)random_64();
    } else {
        frame.length = n > FRAME_MAX ? FRAME_MAX : n;
        memcpy(frame.bytes, slot + 2, frame.length);
        if (chance(150))
            make_version_1(&frame);
        else
            damage(&frame);
        n = frame.length > FRAME_MAX ? FRAME_MAX : (uint32_t)frame.length;
        memcpy(slot + 2, frame.bytes, n);
    }
    slot[0] = (uint8_t)(n >> 8);
    slot[1] = (uint8_t)n;
}

void damage_panel(Panel *panel)
{
    bool some = panel->count > 0 && panel->count <= WAITING_MAX;
    uint32_t way = random_below(13);

    if (way == 0) {
        panel->own = (uint8_t)(chance(300) ? 64 : 64 + random_below(192));
    } else if (way == 1) {
        panel->own = (uint8_t)random_below(PANELS);
    } else if (way == 2) {
        panel->marks[random_below(PANELS)] =
            plus(panel->high, 1 + random_below(2) * random_below(100));
    } else if (way == 3) {
        panel->barrier[random_below(PANELS)] =
            plus(panel->high, 1 + random_below(2) * random_below(100));
    } else if (way == 4) {
        panel->marks[random_below(PANELS)] = panel->high;
        panel->barrier[random_below(PANELS)] = panel->high;
    } else if (way == 5) {
        panel->high = plus(panel->high, -1);
    } else if (way == 6) {
        panel->count = chance(500) ? 33 : chance(500) ? SIZE_MAX : (size_t)random_64();
    } else if (way == 7) { /* more or fewer of the slots */
        panel->count = random_below(33);
    } else if (way == 8) { /* any floor is allowed */
        panel->floor = chance(300) ? UINT64_MAX : random_number();
    } else {
        uint32_t place = random_below(some ? (uint32_t)panel->count : WAITING_MAX);
        damage_slot(panel->slots + PANEL_SLOT_BYTES * place);
    }
}
