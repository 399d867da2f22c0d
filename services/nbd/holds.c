/* The freezes that were answered and aren't thawed yet: who owns them, since when, and how they end. Only the control's thread
 * calls these functions. */
#include "service.h"
#include <inttypes.h>
#include <string.h>

/* A hold ends at its time and, unless it is leased or kept, with its owner's connection. */
typedef struct hold {
    uint64_t number; /* of the freeze */
    controller *owner; /* NULL: its connection has ended */
    who who;
    verb verb;
    holding holding;
    uint64_t since, ends_at; /* in nanoseconds; UINT64_MAX: only a thaw ends it */
    uint64_t export; /* the number of its export; 0: it has none */
} hold;

static hold holds[FREEZE_QUEUE_MOST_DEPTH];
static uint32_t held;

/* The number of the control's freezes that aren't thawed, and since when there has been one, in nanoseconds. */
static uint32_t frozen;
static uint64_t frozen_since;

const char *const verbs[] = {[FREEZE] = "freeze", [QUIESCE] = "quiesce", [FLUSH_NOW] = "flush", [SET] = "set"};

uint64_t time_frozen(void) { return controlled.frozen + (frozen > 0 ? now() - frozen_since : 0); }

uint32_t holds_now(void) { return held; }

double seconds_since(uint64_t at) { return (double)(now() - at) / 1e9; }

double seconds_frozen(void) { return frozen > 0 ? seconds_since(frozen_since) : 0; }

void count_freeze(void)
{
    if (frozen++ == 0)
        frozen_since = now();
}

/* A dying queue refuses to thaw, and no longer needs it. */
void thaw_queue(void)
{
    uint32_t thawed = freeze_queue_waits_thaw(&blkq.waits);
    if (!freeze_queue_is_refused(thawed))
        controlled.thaws++;
    if (--frozen == 0)
        controlled.frozen += now() - frozen_since;
}

void add_hold(controller *from)
{
    uint64_t at = now(), lasts = from->asked.holding == HELD || from->asked.holding == LEASED ? from->asked.lasts : UINT64_MAX;
    if (blkq.max_hold != 0 && blkq.max_hold < lasts)
        lasts = blkq.max_hold;
    holds[held++] = (hold){.number = from->number, .owner = from, .who = from->who, .verb = from->asked.verb,
                           .holding = from->asked.holding, .since = at, .ends_at = lasts == UINT64_MAX ? lasts : at + lasts};
    note("freeze %" PRIu64 ": %s, after %.3f s, " WHO, from->number, verbs[from->asked.verb], seconds_since(from->since), WHOSE(from->who));
}

void end_hold(uint32_t place, const char *why)
{
    const hold ending = holds[place];
    close_export(ending.export);
    thaw_queue();
    held--;
    memmove(&holds[place], &holds[place + 1], (held - place) * sizeof *holds);
    note("freeze %" PRIu64 ": ended by %s, after %.3f s, " WHO, ending.number, why, seconds_since(ending.since), WHOSE(ending.who));
}

bool holds_any(const controller *from) { return last_hold(from) > 0 || from->stage != IDLE || from->has_snapshot; }

uint32_t last_hold(const controller *from)
{
    uint32_t place = held;
    while (place > 0 && holds[place - 1].owner != from)
        place--;
    return place;
}

uint32_t needed_hold(controller *from)
{
    uint32_t depth = 0, place = last_hold(from);
    freeze_queue_waits_depth(&blkq.waits, &depth);
    if (place == 0)
        say(from, depth > 0 ? "not yours" : "not frozen");
    return place;
}

uint32_t hold_numbered(uint64_t number)
{
    uint32_t place = held;
    while (place > 0 && holds[place - 1].number != number)
        place--;
    return place;
}

uint64_t *export_of(uint32_t place) { return &holds[place].export; }

void forget_holds(const controller *from)
{
    for (uint32_t place = held; place-- > 0;)
        if (holds[place].owner == from && holds[place].holding < LEASED)
            end_hold(place, "its connection's end");
        else if (holds[place].owner == from)
            holds[place].owner = NULL;
}

/* Ends a hold whose time has come, and sets the reply to its owner's next `why`. */
static void end_late_hold(uint32_t place)
{
    const hold *one = &holds[place];
    if (one->owner != NULL)
        snprintf(one->owner->ended, sizeof one->owner->ended, "freeze: held for more than %.9g s", (double)(one->ends_at - one->since) / 1e9);
    end_hold(place, "its time");
}

uint64_t end_late_holds(uint64_t at)
{
    uint64_t next = UINT64_MAX;
    for (uint32_t place = held; place-- > 0;) {
        if (holds[place].ends_at <= at)
            end_late_hold(place);
        else if (holds[place].ends_at < next)
            next = holds[place].ends_at;
    }
    return next;
}

void list_holder(FILE *file, uint64_t number, const char *verb, const char *stage, uint64_t since, const who *who, uint64_t ends_at)
{
    fprintf(file, "%" PRIu64 " %s %s %.3f pid %d uid %u ends ", number, verb, stage, seconds_since(since), who->pid, who->uid);
    if (ends_at == UINT64_MAX)
        fprintf(file, "-");
    else
        fprintf(file, "%.3f", ends_at > now() ? (double)(ends_at - now()) / 1e9 : 0.0);
    fprintf(file, " label %s\n", who->label);
}

void list_holds(FILE *file)
{
    static const char *const stages[] = {[DRAINING] = "draining", [FLUSHING] = "flushing"};
    for (uint32_t place = 0; place < held; place++) {
        const hold *one = &holds[place];
        list_holder(file, one->number, verbs[one->verb], "held", one->since, &one->who, one->ends_at);
    }
    for (controller *one = next_controller(NULL); one != NULL; one = next_controller(one))
        if (one->stage != IDLE && one->asked.verb != FLUSH_NOW)
            list_holder(file, one->number, verbs[one->asked.verb], stages[one->stage], one->since, &one->who, UINT64_MAX);
    if (blkq.snapshots != NULL)
        blkq.snapshots->list(file);
    fprintf(file, "# EOF\n");
}
