/* The actors of a race. Passes and the control make their calls on the kernel's percpu_ref; a callback of RCU runs when its
 * grace period may end. */
#include "orders.h"
#include "ref_calls.h"
#include <stdio.h>
#include <stdlib.h>
#include <string.h>
#include <ucontext.h>

struct race race;
static struct percpu_ref *ref;
static ucontext_t first;

static const char *const WORDS[] = {"never", "given", "refused", "not last", "last", "ok", "passed over", "yes", "no",
    "already dead", "not dead", "not zero"};

static bool is(const struct call *call, const char *what) { return !strcmp(call->what, what); }

/* The release: it belongs to the call that puts, or to the kill that began the grace period. A switch's may be it too. */
static void on_release(struct percpu_ref *of)
{
    (void)of;
    world.releases++;
    if (now < 0)
        return;
    unsigned of_call = world.actors[now].of_call;
    if (now < FIRST_GRACE)
        world.actors[now].is_told = true;
    else if (of_call < CALLS && is(&race.calls[CONTROL][of_call], "kill"))
        world.actors[CONTROL].answers[of_call] = LAST;
}

static enum answer pass_call(struct actor *me, const struct call *call)
{
    if (is(call, "try") || is(call, "live")) {
        bool is_given = (is(call, "try") ? ref_try : ref_live)(ref);
        me->held += is_given;
        return is_given ? GIVEN : REFUSED;
    }
    if (is(call, "zero") || is(call, "dying"))
        return (is(call, "zero") ? ref_zero : ref_dying)(ref) ? YES : NO;
    if (!me->held || !call->n || (is(call, "put") && me->held < (int)call->n))
        return PASSED_OVER;
    if (is(call, "get")) {
        ref_get(ref, call->n);
        me->held += call->n;
        return OK;
    }
    me->held -= call->n;
    ref_put(ref, call->n);
    return me->is_told ? LAST : NOT_LAST;
}

static enum answer control_call(struct actor *me, const struct call *call)
{
    if (is(call, "zero"))
        return ref_zero(ref) ? YES : NO;
    if (is(call, "atomic") || is(call, "slots")) {
        (is(call, "atomic") ? ref_atomic : ref_slots)(ref);
        return OK;
    }
    if (is(call, "kill")) {
        if (ref_dying(ref))
            return ALREADY_DEAD;
        world.kills++;
        ref_kill(ref);
        return me->is_told ? LAST : NOT_LAST;
    }
    if (!ref_dying(ref))
        return NOT_DEAD;
    if (is(call, "reinit") && !ref_zero(ref))
        return NOT_ZERO;
    (is(call, "reinit") ? ref_reinit : ref_resurrect)(ref);
    return OK;
}

static void run_calls(void)
{
    int at = now;
    struct actor *me = &world.actors[at];
    step();
    while (me->now < race.counts[at]) {
        enum answer answer = (at == CONTROL ? control_call : pass_call)(me, &race.calls[at][me->now]);
        if (!me->answers[me->now]) /* else the release came in a grace period */
            me->answers[me->now] = answer;
        me->now++;
        me->is_told = false;
    }
    me->status = DONE;
    for (;;)
        leave_actor();
}

static void run_graces(void)
{
    struct actor *me = &world.actors[now];
    for (;;) {
        leave_actor();
        me->head->then(me->head);
        me->head = NULL;
        me->status = DONE;
        me->is_told = false;
    }
}

static void run_first(void)
{
    if (now < FIRST_GRACE)
        run_calls();
    run_graces();
}

void begin_actors(void)
{
    static ucontext_t back;
    memset(&world, 0, sizeof world);
    memset(stacks, 0, sizeof stacks);
    memset(__start_shim_shared, 0, __stop_shim_shared - __start_shim_shared);
    warned = NULL;
    shim_cpus = race.slots;
    now = -1;
    ref = shim_alloc(ref_size());
    if (!ref || !ref_init(ref, on_release, race.start))
        exit(4);
    for (int it = 0; it < ACTORS; it++) {
        world.actors[it].status = it < FIRST_GRACE && race.counts[it] ? READY : DONE;
        getcontext(&first);
        first.uc_stack.ss_sp = stacks[it];
        first.uc_stack.ss_size = STACK;
        first.uc_link = NULL;
        makecontext(&first, run_first, 0);
        now = it;
        places[it].low = NULL;
        extern jmp_buf explorer;
        if (!_setjmp(explorer))
            swapcontext(&back, &first);
        now = -1;
    }
}

size_t outcome_key(uint8_t *key)
{
    size_t size = 0;
    for (unsigned it = 0; it <= CONTROL; it++) {
        memcpy(key + size, world.actors[it].answers, CALLS);
        size += CALLS;
        memcpy(key + size, &world.actors[it].held, sizeof(int32_t));
        size += sizeof(int32_t);
    }
    memcpy(key + size, &world.releases, sizeof world.releases);
    size += sizeof world.releases;
    key[size++] = ref_zero(ref) ? 2 : ref_dying(ref);
    key[size] = 0;
    for (int it = 0; it < ACTORS; it++)
        key[size] |= world.actors[it].status != DONE;
    return size + 1;
}

void print_outcome(void)
{
    uint8_t key[256];
    int held = 0;
    for (unsigned it = 0; it <= CONTROL; it++) {
        held += world.actors[it].held;
        if (it < race.passes)
            printf("%u", it);
        else if (it == CONTROL)
            printf("c");
        else
            continue;
        for (unsigned at = 0; at < race.counts[it]; at++)
            printf("%s %s", at ? " /" : "", WORDS[world.actors[it].answers[at]]);
        puts("");
    }
    size_t size = outcome_key(key);
    printf("end %s kills %u releases %u held %d%s\n", key[size - 2] == 2 ? "zero" : key[size - 2] ? "dead" : "live", world.kills,
           world.releases, held, key[size - 1] ? " stuck" : "");
}
