/*
 * Four panels of a farm in one process: what they send, hand, keep waiting, drop and refuse, what
 * a trace tells of it, how a clock is set back, and the log of each in the end. It prints what
 * stands in farm.txt; examples/run.sh builds it.
 */
#include <panel.h>

#include <inttypes.h>
#include <stdio.h>
#include <stdlib.h>
#include <string.h>

enum { LOG_MAX = 16, BUNDLE_MAX = 1024, CHAIN = 3 };
enum { YEAR = 365 * 24 * 60 * 60 }; /* in seconds */

/* A panel: its record, and its log so far. */
typedef struct {
    Panel record;
    uint8_t log[LOG_MAX * PANEL_LOG_RECORD];
    size_t logged;
} Member;

/* A frame on its way from panel to panel, and the text and the deadline of its message. */
typedef struct {
    uint8_t bytes[PANEL_FRAME_MAX];
    size_t length;
    const char *text;
    uint64_t deadline;
} Parcel;

/* A tractor cab, and the bundle that it carries. */
typedef struct {
    uint8_t bundle[BUNDLE_MAX];
    size_t length;
} Cab;

/* Ends the program if a call was refused that is not refused in this story. */
static void must_be_accepted(const char *call, PanelNumber number)
{
    if (number == PANEL_ACCEPTED)
        return;
    fprintf(stderr, "farm: %s was refused with %u: %s\n", call, number, panel_number_text(number));
    exit(1);
}

/* Ends the program if something has no room for so many more. */
static void must_have_room(const char *what, size_t room, size_t more)
{
    if (more <= room)
        return;
    fprintf(stderr, "farm: %s is full\n", what);
    exit(1);
}

/* Puts the log records of a call at the end of the log. */
static void keep(Member *member, const uint8_t *output, size_t count)
{
    must_have_room("a log", LOG_MAX - member->logged, count);
    memcpy(member->log + member->logged * PANEL_LOG_RECORD, output, count * PANEL_LOG_RECORD);
    member->logged += count;
}

/* The clock of a panel shows a time. */
static void set_clock(Member *member, uint64_t time)
{
    uint8_t output[PANEL_OUTPUT_MIN];
    size_t waiting = member->record.count;

    PanelAnswer answer = panel_clock(&member->record, time, output, sizeof output);
    must_be_accepted("panel_clock", answer.number);
    keep(member, output, answer.count);
    printf("panel %u sets its time to %" PRIu64 ": %zu handed, %zu dropped\n", member->record.own,
           time, answer.count, waiting - answer.count - member->record.count);
}

/* A technician sets the clock of a panel back. */
static void set_back(Member *member, uint64_t time)
{
    must_be_accepted("panel_set_back", panel_set_back(&member->record, time));
    printf("panel %u is set back to %" PRIu64 ": its floor is %" PRIu64 "\n", member->record.own,
           member->record.time, member->record.floor);
}

/* A panel comes to life. */
static void start(Member *member, uint8_t number, uint64_t time)
{
    must_be_accepted("panel_fresh", panel_fresh(&member->record, number));
    member->logged = 0;
    set_clock(member, time);
}

/* What a panel does when it has sent a message or a beacon: the first log record is its own. */
static void sent(Member *member, PanelAnswer answer, const uint8_t *output, Parcel *parcel)
{
    keep(member, output, answer.count);
    parcel->length = answer.length;
    parcel->deadline = panel_log_record(output, PANEL_OUTPUT_MIN, 0).deadline;
    printf("\"%s\" with deadline %" PRIu64 "\n", parcel->text, parcel->deadline);
}

/* A panel sends a note for operators, with the lifetime that 0 stands for. */
static Parcel send_text(Member *member, const char *text)
{
    uint8_t output[PANEL_OUTPUT_MIN];
    Parcel parcel = {.text = text};

    PanelAnswer answer = panel_send(&member->record, (const uint8_t *)text, strlen(text), 0, output,
                                    sizeof output, parcel.bytes, sizeof parcel.bytes);
    must_be_accepted("panel_send", answer.number);
    printf("panel %u sends ", member->record.own);
    sent(member, answer, output, &parcel);
    return parcel;
}

/* A panel sends its status, which nobody needs when it is old: a beacon lapses soon. */
static Parcel send_beacon(Member *member, const char *text)
{
    uint8_t output[PANEL_OUTPUT_MIN];
    Parcel parcel = {.text = text};

    PanelAnswer answer = panel_beacon(&member->record, (const uint8_t *)text, strlen(text), output,
                                      sizeof output, parcel.bytes, sizeof parcel.bytes);
    must_be_accepted("panel_beacon", answer.number);
    printf("panel %u sends the beacon ", member->record.own);
    sent(member, answer, output, &parcel);
    return parcel;
}

/* A frame comes in at a panel. Here a refusal is no mistake: copies and late frames are usual. */
static void receive_frame(Member *member, const uint8_t *frame, size_t length)
{
    uint8_t output[PANEL_OUTPUT_MIN];

    PanelAnswer answer = panel_receive(&member->record, frame, length, output, sizeof output);
    keep(member, output, answer.count);
    if (answer.number == PANEL_ACCEPTED)
        printf("%zu handed, %zu waiting\n", answer.count, member->record.count);
    else
        printf("refused with %u\n", answer.number);
}

static void receive(Member *member, const Parcel *parcel)
{
    printf("panel %u receives \"%s\": ", member->record.own, parcel->text);
    receive_frame(member, parcel->bytes, parcel->length);
}

/* The panel of the last entry visited: the visited-th set bit of the mask. The frame is of version
   2, as it was sent by one of these panels. */
static unsigned last_visited(const Parcel *parcel, size_t visited)
{
    const uint8_t *mask = parcel->bytes + PANEL_FRAME_MASK_AT;
    unsigned panel = 0;

    for (; panel < PANEL_PANELS; panel++) {
        if ((mask[7 - panel / 8] >> panel % 8 & 1) != 0 && --visited == 0)
            break;
    }
    return panel;
}

/* A technician asks what a panel would do with a frame, and which message it lacks. */
static void trace(const Member *member, const Parcel *parcel)
{
    PanelTrace answer = panel_trace(&member->record, parcel->bytes, parcel->length);
    printf("a trace of \"%s\" at panel %u: number %u, %zu entries visited, ", parcel->text,
           member->record.own, answer.number, answer.visited);
    if (answer.ready)
        printf("ready\n");
    else
        printf("that of panel %u not met\n", last_visited(parcel, answer.visited));
}

/* A technician asks why a panel refuses a frame. */
static void say_why(const Member *member, const Parcel *parcel)
{
    PanelTrace answer = panel_trace(&member->record, parcel->bytes, parcel->length);
    printf("why panel %u refuses \"%s\": %s\n", member->record.own, parcel->text,
           panel_number_text(answer.number));
}

/* The radio looks at a frame that was damaged on its way, here in the first byte of its mark. */
static void check_damaged(Parcel parcel)
{
    parcel.bytes[0] ^= 1;
    printf("a damaged copy of \"%s\": the frame check answers %u\n", parcel.text,
           panel_frame_check(parcel.bytes, parcel.length));
}

/* A cab takes a frame along: it puts it into its bundle, behind its length in 16 bits. */
static void take_along(Cab *cab, const Parcel *parcel)
{
    uint8_t *end = cab->bundle + cab->length;

    must_have_room("a bundle", BUNDLE_MAX - cab->length, 2 + parcel->length);
    end[0] = (uint8_t)(parcel->length >> 8);
    end[1] = (uint8_t)parcel->length;
    memcpy(end + 2, parcel->bytes, parcel->length);
    cab->length += 2 + parcel->length;
}

/* A cab meets a panel and passes its bundle. */
static void receive_bundle(Member *member, const Cab *cab)
{
    PanelBundle bundle = panel_bundle(cab->bundle, cab->length);
    PanelBundleStep step;
    const uint8_t *frame;
    size_t length;
    unsigned frames = 0;

    printf("a cab passes panel %u a bundle of %zu bytes\n", member->record.own, cab->length);
    while ((step = panel_bundle_next(&bundle, &frame, &length)) == PANEL_BUNDLE_FRAME) {
        frames++;
        printf("panel %u receives frame %u of the bundle: ", member->record.own, frames);
        receive_frame(member, frame, length);
    }
    printf("the bundle %s\n", step == PANEL_BUNDLE_END ? "ends" : "is broken");
}

/* Source, deadline and text of each log record. */
static void print_log(const Member *member)
{
    printf("\nlog of panel %u\n", member->record.own);
    for (size_t i = 0; i < member->logged; i++) {
        PanelLogRecord record = panel_log_record(member->log, sizeof member->log, i);
        printf("  %u %" PRIu64 " %.*s\n", record.source, record.deadline, record.length,
               (const char *)record.payload);
    }
}

/* Two panels send each other a chain of messages: each has the one before it as its cause. */
static void send_chain(Member *one, Member *other, Parcel chain[CHAIN])
{
    chain[0] = send_text(one, "hold batch 6");
    receive(other, &chain[0]);
    chain[1] = send_text(other, "moisture 19");
    receive(one, &chain[1]);
    set_clock(one, 200);
    chain[2] = send_text(one, "hold lifted");
}

/* A panel gets them in the wrong order, and the first once more by another route. */
static void wrong_order(Member *member, const Parcel chain[CHAIN])
{
    receive(member, &chain[2]);
    receive(member, &chain[1]);
    check_damaged(chain[0]);
    receive(member, &chain[0]);
    receive(member, &chain[0]);
}

/*
 * A panel gets them in order, and sends a note. The barrier entry of each was removed when the next
 * one was handed, which names it. So the frame has one entry, that of the last: 31 bytes and the
 * text, however long the chain is.
 */
static void short_frame(Member *member, const Parcel chain[CHAIN])
{
    for (size_t i = 0; i < CHAIN; i++)
        receive(member, &chain[i]);
    Parcel note = send_text(member, "load batch 6");
    printf("its frame has %zu bytes, %zu of them text\n", note.length, strlen(note.text));
}

/* A tractor cab brings two messages of a panel to another, the later one first, and drives on. */
static Cab by_cab(Member *from, Member *to)
{
    Cab cab = {.length = 0};

    Parcel full = send_text(from, "bin 4 full");
    Parcel emptied = send_text(from, "bin 4 emptied");
    take_along(&cab, &emptied);
    take_along(&cab, &full);
    receive_bundle(to, &cab);
    return cab;
}

/* Two messages lapse: one while it waits for the other, which then comes too late. */
static void too_late(Member *from, Member *to)
{
    Parcel fan_on = send_text(from, "fan 2 on");
    Parcel fan_off = send_text(from, "fan 2 off");
    receive(to, &fan_off);
    set_clock(to, fan_off.deadline + 1);
    receive(to, &fan_on);
}

/*
 * A panel that lacks a beacon holds back the note that was sent after it until the beacon lapses.
 * That is soon: sent with lifetime 0, it would hold the note back to the last second of its life.
 */
static void beacon_lapses(Member *from, Member *to, Parcel *beacon, Parcel *note)
{
    *beacon = send_beacon(from, "dryer 9 runs");
    *note = send_text(from, "hold batch 7");
    receive(to, note);
    set_clock(to, beacon->deadline + 1);
    receive(to, beacon);
}

/*
 * A panel would keep a beacon waiting, as it lacks one of the two messages that come before it in
 * cause. The cab brings that one, and the beacon would be handed.
 */
static void look_for_cause(Member *member, const Parcel *beacon, const Cab *cab)
{
    trace(member, beacon);
    receive_bundle(member, cab);
    trace(member, beacon);
}

/*
 * The clock of a panel is set to a wrong year, so the note that it sends is far ahead. The others
 * refuse it, and go on as before.
 */
static Parcel wrong_year(Member *wrong, Member *one, Member *other)
{
    set_clock(wrong, wrong->record.time + YEAR);
    Parcel far_ahead = send_text(wrong, "bin 5 full");
    receive(one, &far_ahead);
    receive(other, &far_ahead);
    say_why(other, &far_ahead);
    Parcel moisture = send_text(one, "moisture 17");
    receive(other, &moisture);
    return moisture;
}

/*
 * The clock of a panel is ahead, so that a note is handed without the beacon that it names, and
 * without the two messages that come before the beacon in cause. Then it is set to a wrong year:
 * what waits is dropped, and the panel is deaf. Set back, it still refuses these two, by the floor,
 * as they would stand behind the note. Later messages it takes, also the one that it dropped, and
 * hands them in order.
 */
static void deaf_panel(Member *deaf, Member *from, const Parcel *beacon, const Parcel *note,
                       const Parcel *moisture, const Cab *cab)
{
    uint64_t right = deaf->record.time;

    receive(deaf, note);
    set_clock(deaf, beacon->deadline + 1);
    Parcel load = send_text(from, "load batch 7");
    receive(deaf, &load);
    set_clock(deaf, right + YEAR);
    receive(deaf, moisture);
    set_back(deaf, right);
    receive_bundle(deaf, cab);
    receive(deaf, &load);
    receive(deaf, moisture);
}

int main(void)
{
    static Member three, five, nine, twelve;
    Parcel chain[CHAIN], beacon, note;

    /* no common clock */
    start(&three, 3, 100);
    start(&five, 5, 90);
    start(&nine, 9, 110);
    start(&twelve, 12, 120);

    send_chain(&three, &five, chain);
    wrong_order(&nine, chain);
    short_frame(&twelve, chain);

    Cab cab = by_cab(&five, &nine);
    too_late(&three, &nine);

    /* the deadlines in the log of panel 9 have passed, so its beacon lapses as soon as one can */
    beacon_lapses(&nine, &five, &beacon, &note);

    /* panel 3 has not had it; at panel 5 it has lapsed, and so have the entries that it carries */
    look_for_cause(&three, &beacon, &cab);
    trace(&five, &beacon);

    Parcel moisture = wrong_year(&three, &five, &nine);
    deaf_panel(&twelve, &five, &beacon, &note, &moisture, &cab);

    print_log(&three);
    print_log(&five);
    print_log(&nine);
    print_log(&twelve);
    return 0;
}
