/* Random frames of both versions: sent ones again, forged ones, damaged ones, noise. */
#include "frames.h"

#include "../convert.h"
#include "../reference_frames.h"
#include "random.h"

#include <string.h>

enum { HISTORY = 400 };

static Bytes history[HISTORY]; /* frames sent, the newest over the oldest */
static size_t sent_frames;

void remember_frame(const Bytes *frame)
{
    Bytes *kept = &history[sent_frames++ % HISTORY];
    kept->length = frame->length;
    memcpy(kept->bytes, frame->bytes, frame->length);
}

void forget_frames(void)
{
    sent_frames = 0;
}

static const Bytes *old_frame(void)
{
    size_t kept = sent_frames < HISTORY ? sent_frames : HISTORY;
    size_t back = chance(400) ? random_below(8) : random_below((uint32_t)kept);
    if (back >= kept)
        back = kept - 1;
    return &history[(sent_frames - 1 - back) % HISTORY];
}

uint64_t random_mask(void)
{
    uint64_t mask = 0;
    uint32_t way = random_below(100);
    if (way < 30)
        return 0;
    if (way < 85) {
        for (uint32_t bits = 1 + random_below(3); bits > 0; bits--)
            mask |= (uint64_t)1 << random_below(PANELS);
        return mask;
    }
    return way < 96 ? random_64() : UINT64_MAX;
}

void random_message(Message *message, const Panel *panel, uint8_t source,
                    uint64_t deadline, uint64_t mask)
{
    memset(message, 0, sizeof *message);
    message->source = source;
    message->deadline = deadline < 1 ? 1 : deadline;
    message->mask = message->deadline == 1 ? 0 : mask;
    bool low = chance(400); /* all entries met */
    size_t entries = 0;
    for (uint64_t rest = message->mask; rest != 0; rest &= rest - 1) {
        uint64_t mark = panel->marks[__builtin_ctzll(rest)];
        uint64_t entry;
        if (panel->floor != 0 && chance(200))
            entry = plus(panel->floor, low ? 0 : (int64_t)random_below(3) - 1);
        else if (low)
            entry = chance(500) ? mark : plus(panel->time, -1);
        else if (chance(500))
            entry = plus(mark, (int64_t)random_below(3) - 1);
        else
            entry = plus(panel->time, (int64_t)random_below(40) - 10);
        if (entry < 1)
            entry = 1;
        if (entry >= message->deadline)
            entry = message->deadline - 1;
        message->entries[entries++] = entry;
    }
    message->length = (uint8_t)(chance(200) ? 32 : random_below(33));
    random_bytes(message->payload, message->length);
}

/* What a forged frame says. */
typedef struct {
    uint8_t source;
    uint64_t deadline;
    uint64_t mask;
} Forged;

/* The message of an entry that a waiting one has, or the waiting one itself. */
static void forge_awaited(Forged *forged, const Panel *panel)
{
    Record record;
    record_of_panel(panel, &record);
    const Message *waits = &record.waiting[random_below((uint32_t)panel->count)];
    size_t entries = (size_t)__builtin_popcountll(waits->mask);

    if (entries > 0) {
        size_t place = random_below((uint32_t)entries);
        uint64_t rest = waits->mask;
        for (size_t i = 0; i < place; i++)
            rest &= rest - 1;
        forged->source = (uint8_t)__builtin_ctzll(rest);
        forged->deadline = waits->entries[place];
        forged->mask = chance(700) ? 0 : random_mask();
    }
    if (entries == 0 || chance(100)) {
        forged->source = waits->source % PANELS;
        forged->deadline = waits->deadline;
    }
}

/* A frame that nobody sent, often one that somebody waits for. */
static void forge(Bytes *frame, const Panel *panel)
{
    Message message;
    Forged forged = {
        (uint8_t)random_below(PANELS),
        plus(panel->time, (int64_t)random_below(120) - 8),
        random_mask()
    };

    if (panel->count > 0 && panel->count <= WAITING_MAX && chance(500))
        forge_awaited(&forged, panel);
    else if (chance(150)) /* at its source's mark or next to it */
        forged.deadline = plus(panel->marks[forged.source], (int64_t)random_below(3) - 1);
    else if (chance(100)) /* at the floor or next to it */
        forged.deadline = plus(panel->floor, (int64_t)random_below(3) - 1);
    else if (chance(40)) /* above the farthest; rarely at it, as high then stays far ahead */
        forged.deadline = plus(panel->time, PANEL_FARTHEST_AHEAD + (chance(100) ? 0 : 1));
    random_message(&message, panel, forged.source, forged.deadline, forged.mask);
    frame->length = c_frame_write(&message, frame->bytes);
}

void make_version_1(Bytes *frame)
{
    Message message;

    if (c_frame_read(frame->bytes, frame->length, &message) == 0 && message.deadline <= UINT32_MAX)
        frame->length = frame_1_write(&message, frame->bytes);
}

/* Random bytes, with more or less of a right start of either version. */
static void noise(Bytes *frame)
{
    const uint8_t start[8] = {0x44, 0x52, 0x59, 0, (uint8_t)(1 + random_below(2)), 7, 0, 0};

    frame->length = chance(500) ? random_below(40) : random_below(BYTES_MAX);
    memcpy(frame->bytes, start, random_below(9));
    if (chance(300))
        memset(frame->bytes + mask_at(chance(500) ? WIDTH_1 : WIDTH_2), 0, 8);
}

void random_frame(Bytes *frame, const Panel *panel)
{
    uint32_t way = random_below(100);

    random_bytes(frame->bytes, BYTES_MAX); /* behind the frame too */
    if (way < 4) {
        noise(frame);
        return;
    }
    if (way < 40 || sent_frames == 0) {
        forge(frame, panel);
    } else {
        const Bytes *old = old_frame();
        frame->length = old->length;
        memcpy(frame->bytes, old->bytes, old->length);
    }
    if (chance(350))
        make_version_1(frame);
    if (chance(150)) {
        damage(frame);
        if (chance(250))
            damage(frame);
    }
}
