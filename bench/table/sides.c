/* The start of a case: the records of both sides, and what the call changes there. */
#include "loops.h"

#include "../convert.h"

const char *const side_name[SIDES] = {"proved", "C"};

Answer answer;
Caller caller;

static const Loops *const loops[SIDES] = {&proved_loops, &c_loops};

/* Notes which bytes the call changed, in front of the waiting messages and in so many of them, and
   whether it changed the floor. */
static void find_changed(Worked *worked, size_t waiting)
{
    const uint8_t *before = worked->kept, *after = worked->record;
    size_t from = 0, to = worked->front + worked->message * waiting;

    while (from < to && before[from] == after[from])
        from++;
    while (from < to && before[to - 1] == after[to - 1])
        to--;
    worked->from = from;
    worked->changed = to - from;
    worked->raised = memcmp(before + worked->floor, after + worked->floor, sizeof(uint64_t)) != 0;
}

static Side start_side(const Loops *of)
{
    Side side = {of->calls[now.kind], NULL};
    Worked *worked = of->worked;
    size_t waiting = now.panel.count <= WAITING_MAX ? now.panel.count : 0;

    memcpy(worked->record, worked->kept, worked->size);
    worked->changed = 0;
    worked->raised = false;
    side.call(1);
    find_changed(worked, waiting);
    if ((worked->changed != 0 || worked->raised) && CHANGES_RECORD(now.kind))
        side.put_back = of->put_back;
    return side;
}

void start_case(Side sides[SIDES])
{
    record_of_panel(&now.panel, &now.record);
    for (int side = 0; side < SIDES; side++)
        sides[side] = start_side(loops[side]);
}
