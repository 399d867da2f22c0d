/* The lines of the control: their effect on the queue, and their replies. The lines of a script have the replies of docs/FORMATS.md.
 * No call waits: a line that drains the queue or flushes the backend gets its reply later (go_on). */
#include "service.h"
#include <inttypes.h>
#include <stdio.h>
#include <string.h>

control_counts controlled = {.mode = FREEZE_QUEUE_MODE_SLOTS};

uint64_t next_number(void)
{
    static uint64_t numbers;
    return ++numbers;
}

uint64_t now(void)
{
    struct timespec at;
    clock_gettime(CLOCK_MONOTONIC, &at);
    return (uint64_t)at.tv_sec * 1000000000 + (uint64_t)at.tv_nsec;
}

/* ---- Replies ---- */

static void say_depth(controller *to)
{
    char text[32];
    uint32_t depth = 0;
    freeze_queue_waits_depth(&blkq.waits, &depth);
    snprintf(text, sizeof text, "depth %" PRIu32, depth);
    say(to, text);
}

static void say_refusal(controller *to, uint32_t refused)
{
    controlled.refused++;
    to->refused = refused;
    to->ended[0] = '\0';
    note("refused: %s, " WHO, freeze_queue_text(refused), WHOSE(to->who));
    if (refused >= FREEZE_QUEUE_ERR_ABOVE_HARDWARE && refused <= FREEZE_QUEUE_ERR_BAD_PHYSICAL)
        say(to, "EINVAL");
    else
        say(to, refused == FREEZE_QUEUE_ERR_DEPTH_FULL ? "depth full" : freeze_queue_text(refused));
}

/* The field that the queue refuses; FIELDS if the refusal isn't about a field. */
static int field_refused(uint32_t refused)
{
    switch (refused) {
    case FREEZE_QUEUE_ERR_ABOVE_HARDWARE: return MAX_SECTORS;
    case FREEZE_QUEUE_ERR_CHUNK_TOO_LARGE: return CHUNK_SECTORS;
    case FREEZE_QUEUE_ERR_BAD_PHYSICAL: return PHYSICAL_SECTORS;
    default: return FIELDS;
    }
}

/* Says why the queue last refused a line of a controller; the reply itself may have been just EINVAL. */
static void say_why(controller *to)
{
    char text[128];
    int field = field_refused(to->refused);
    const char *name = field < FIELDS ? fields[field] : "queue";
    snprintf(text, sizeof text, "%s: %s", name, freeze_queue_text(to->refused));
    say(to, to->ended[0] != '\0' ? to->ended : to->refused == FREEZE_QUEUE_OK ? "nothing was refused" : text);
}

/* ---- Freezes that are held ---- */

/* Thaws the freeze that a controller's pending line began. A `flush` began none. */
static void give_up(controller *from, const char *why)
{
    if (from->stage != IDLE && from->asked.verb != FLUSH_NOW)
        thaw_queue();
    if (from->stage != IDLE && why != NULL)
        note("%s given up: %s, " WHO, verbs[from->asked.verb], why, WHOSE(from->who));
    from->stage = IDLE;
}

void forget_controller(controller *from)
{
    give_up(from, "its connection's end");
    forget_holds(from);
    if (blkq.snapshots != NULL)
        blkq.snapshots->forget(from);
}

/* Gives up lines whose drain or flush takes longer than the server allows. Returns when the next line will. */
static uint64_t end_late_lines(uint64_t at)
{
    uint64_t next = UINT64_MAX;
    for (controller *one = next_controller(NULL); one != NULL && blkq.drain_timeout != 0; one = next_controller(one)) {
        uint64_t late = one->stage == IDLE ? UINT64_MAX : one->since + blkq.drain_timeout;
        if (late <= at) {
            char text[64];
            snprintf(text, sizeof text, "%s took more than %g s", one->stage == DRAINING ? "drain" : "flush", (double)blkq.drain_timeout / 1e9);
            give_up(one, text);
            controlled.refused++;
            say(one, text);
        } else if (late < next) {
            next = late;
        }
    }
    return next;
}

int end_late(void)
{
    uint64_t at = now(), lines = end_late_lines(at), next = end_late_holds(at);
    uint64_t snapshot = blkq.snapshots != NULL ? blkq.snapshots->end_old(at) : UINT64_MAX;
    if (lines < next)
        next = lines;
    if (snapshot < next)
        next = snapshot;
    if (next == UINT64_MAX)
        return -1;
    uint64_t milliseconds = (next - at) / 1000000 + 1;
    return milliseconds > 1000000 ? 1000000 : (int)milliseconds;
}

const char *state_now(void)
{
    const char *state = holds_now() > 0 ? "held" : "running";
    for (controller *one = next_controller(NULL); one != NULL; one = next_controller(one))
        if (one->stage == DRAINING)
            return "draining";
        else if (one->stage == FLUSHING)
            state = "flushing";
    return state;
}

/* ---- A line goes on once the queue is drained ---- */

static void hold_on(controller *from)
{
    add_hold(from);
    from->stage = IDLE;
    say_depth(from);
}

/* The limits that a line sets, and the limits in force for the fields that it doesn't name. */
static uint32_t limits_asked(const command *asked, freeze_queue_limits *limits)
{
    uint32_t refused = freeze_queue_waits_limits(&blkq.waits, limits), piece;
    uint32_t *const values[FIELDS] = {&limits->max, &limits->chunk, &limits->physical};
    for (int field = 0; field < FIELDS; field++)
        if (asked->sets[field])
            *values[field] = asked->to[field];
    if (limits->physical == 0) /* the library takes 0 for the default, which no line asks for */
        return FREEZE_QUEUE_ERR_BAD_PHYSICAL;
    return refused == FREEZE_QUEUE_OK ? freeze_queue_first_piece(limits, 0, 1, &piece) : refused;
}

/* Sets the limits of the drained queue, all that a line names in one call. */
static void set_limits(controller *from)
{
    freeze_queue_limits limits;
    uint32_t refused = limits_asked(&from->asked, &limits);
    if (refused == FREEZE_QUEUE_OK)
        refused = freeze_queue_waits_set(&blkq.waits, &limits);
    if (refused != FREEZE_QUEUE_OK) {
        say_refusal(from, refused);
    } else {
        controlled.settings++;
        note("set: max %" PRIu32 " chunk %" PRIu32 " physical %" PRIu32 ", " WHO, limits.max, limits.chunk, limits.physical, WHOSE(from->who));
        say(from, "ok");
    }
}

static void end_flush(controller *from, int failed)
{
    controlled.flushing += now() - from->since;
    if (failed == 0 && from->asked.verb == FLUSH_NOW) {
        from->stage = IDLE;
        if (needed_hold(from) > 0) /* it may have ended during the flush */
            say(from, "ok");
        return;
    }
    if (failed == 0) {
        controlled.quiesces++;
        hold_on(from);
        return;
    }
    char text[64];
    snprintf(text, sizeof text, "flush: %s", strerror(failed));
    give_up(from, text);
    controlled.refused++;
    say(from, text);
}

static void begin_flush(controller *from)
{
    from->stage = FLUSHING;
    from->since = now();
    from->ticket = ask_flush();
}

/* The queue is drained, and the freeze of the line has begun. */
static void go_on_drained(controller *from)
{
    controlled.draining += now() - from->since;
    if (from->asked.verb == SET) {
        set_limits(from);
        give_up(from, NULL);
    } else if (from->asked.verb == QUIESCE && blkq.flush != NULL) {
        begin_flush(from);
    } else {
        controlled.freezes += from->asked.verb == FREEZE;
        controlled.quiesces += from->asked.verb == QUIESCE;
        hold_on(from);
    }
}

void go_on(controller *from)
{
    int failed = 0;
    if (from->stage == DRAINING && freeze_queue_waits_is_drained(&blkq.waits))
        go_on_drained(from);
    else if (from->stage == FLUSHING && is_flushed(from->ticket, &failed))
        end_flush(from, failed);
}

/* ---- Lines ---- */

/* Begins a freeze, and goes on with the line once the queue is drained, now or later. */
static void begin_freeze(controller *from)
{
    uint32_t begun = FREEZE_QUEUE_ERR_DYING;
    if (!freeze_queue_waits_is_dying(&blkq.waits))
        begun = holds_now() < FREEZE_QUEUE_MOST_DEPTH ? freeze_queue_waits_begin_freeze(&blkq.waits) : FREEZE_QUEUE_ERR_DEPTH_FULL;
    if (freeze_queue_is_refused(begun)) {
        say_refusal(from, begun);
        return;
    }
    count_freeze(); /* the time frozen includes the drain */
    from->stage = DRAINING;
    from->since = now();
    from->number = next_number();
    go_on(from);
}

static void thaw(controller *from)
{
    uint32_t place = needed_hold(from);
    if (place == 0)
        return;
    end_hold(place - 1, "its owner");
    say_depth(from);
}

/* Gives up the line whose freeze has this number while it drains or flushes, or all such lines for 0. Returns whether there was one. */
static bool give_up_lines(uint64_t number, const char *why)
{
    bool found = false;
    for (controller *other = next_controller(NULL); other != NULL; other = next_controller(other))
        if (other->stage != IDLE && (number == 0 || (other->number == number && other->asked.verb != FLUSH_NOW))) {
            give_up(other, why);
            say(other, "thawed");
            found = true;
        }
    return found;
}

/* Ends the freeze with a number, whoever owns it. */
static void thaw_one(controller *from)
{
    char why[128];
    uint32_t place = hold_numbered(from->asked.number);
    snprintf(why, sizeof why, "thaw %" PRIu32 " of " WHO, from->asked.number, WHOSE(from->who));
    if (place > 0)
        end_hold(place - 1, why);
    else if (from->asked.number == 0 || !give_up_lines(from->asked.number, why)) {
        say(from, "no such freeze");
        return;
    }
    say_depth(from);
}

/* Flushes the backend under a freeze that the controller holds. */
static void flush(controller *from)
{
    if (needed_hold(from) == 0)
        return;
    if (blkq.flush == NULL)
        say(from, "ok");
    else
        begin_flush(from);
}

/* A line about a snapshot. */
static void snapshot(controller *from)
{
    if (blkq.snapshots != NULL)
        blkq.snapshots->run(from);
    else
        say(from, blkq.exports ? "one connection at a time" : "no backend");
}

/* Ends every freeze, and each line that still drains or flushes. */
static void thaw_all(controller *from)
{
    char why[96];
    snprintf(why, sizeof why, "thaw all of " WHO, WHOSE(from->who));
    give_up_lines(0, why);
    while (holds_now() > 0)
        end_hold(holds_now() - 1, why);
    say_depth(from);
}

/* Tells the number of the newest freeze that the controller holds. */
static void say_number(controller *to)
{
    char text[32];
    uint32_t place = needed_hold(to);
    snprintf(text, sizeof text, "number %" PRIu64, to->number);
    if (place > 0)
        say(to, text);
}

static void take_label(controller *from)
{
    char *label = from->who.label;
    strncpy(label, from->asked.label, sizeof from->who.label - 1);
    for (; *label != '\0'; label++)
        if ((unsigned char)*label < ' ' || (unsigned char)*label > '~' || *label == '"')
            *label = '?';
    say(from, "ok");
}

/* Refused limits begin no freeze. If the queue is drained already, the line needs no freeze of its own. */
static void set(controller *from)
{
    freeze_queue_limits limits;
    uint32_t refused = limits_asked(&from->asked, &limits);
    if (refused != FREEZE_QUEUE_OK)
        say_refusal(from, refused);
    else if (freeze_queue_waits_is_drained(&blkq.waits))
        set_limits(from);
    else
        begin_freeze(from);
}

static void count_by(controller *from)
{
    uint32_t refused = freeze_queue_waits_mode(&blkq.waits, from->asked.mode);
    if (refused != FREEZE_QUEUE_OK) {
        say_refusal(from, refused);
        return;
    }
    controlled.mode = from->asked.mode;
    say(from, "ok");
}

static void tell(controller *to, char *write(size_t *length))
{
    size_t length = 0;
    char *text = write(&length);
    if (text == NULL)
        say(to, "no memory");
    else
        say_all(to, text, length);
}

void run_line(controller *from, char *line)
{
    const char *fault = parse(line, &from->asked);
    if (fault != NULL) {
        say(from, fault);
        return;
    }
    if (!may_freeze(from) && (from->asked.verb == FREEZE || from->asked.verb == QUIESCE || from->asked.verb == SET || from->asked.verb == SNAPSHOT)) {
        note("refused: busy, " WHO, WHOSE(from->who));
        say(from, "busy");
        return;
    }
    switch (from->asked.verb) {
    case NOTHING: break;
    case FREEZE:
    case QUIESCE: begin_freeze(from); break;
    case FLUSH_NOW: flush(from); break;
    case EXPORT: export_hold(from); break;
    case COPIED_NOW: tell_copied(from); break;
    case ADDRESS_NOW: say_address(from); break;
    case SNAPSHOT: snapshot(from); break;
    case THAW: thaw(from); break;
    case LABEL: take_label(from); break;
    case THAW_ONE: thaw_one(from); break;
    case THAW_ALL: thaw_all(from); break;
    case HOLDERS: tell(from, tell_holders); break;
    case REQUESTS: tell(from, tell_requests); break;
    case NUMBER: say_number(from); break;
    case SET: set(from); break;
    case WHY: say_why(from); break;
    case MODE: count_by(from); break;
    case STAT: tell(from, tell_stat); break;
    case METRICS: tell(from, tell_metrics); break;
    }
}
