/* Random calls on one thread, right ones and wrong ones, on a few gates: each answer, and each value that is written,
 * is what a model of plain numbers says. Words: the seed, and how many calls. */
#include "percpu_gate.h"
#include "random_calls.h"

#include <string.h>

enum { CONTROLS = 3, PASSES = 12, GATES = 1 << 16, HELD_MOST = 65535, UNWRITTEN = 12345 };

struct gate {
    uint32_t slots, waiting, out, closed; /* passes that wait, and that aren't retired; slots that a kill has closed */
    uint32_t phase, wants;                /* the phase, and the live phase of the mode asked for last */
    bool dead, zero;
    uint64_t number, held, kills, releases, front, words[8];
};

static struct gate gates[GATES];
static struct gate *next_gate = gates;
static struct { percpu_gate_control handle; struct gate *gate; } controls[CONTROLS];
static struct { percpu_gate_pass handle; struct gate *gate; uint32_t held; uint64_t releases; } passes[PASSES];

/* Any word of 64 bits, and often one at an end. */
static uint64_t any_word(void)
{
    uint64_t most = UINT64_MAX, half = (uint64_t)any_below(UINT32_MAX) << 32;
    return any_below(4) == 0 ? most * any_below(2) : half | any_below(UINT32_MAX);
}

static bool in_a_kill(const struct gate *g)
{
    return g->phase >= PERCPU_GATE_PHASE_CLOSING && g->phase <= PERCPU_GATE_PHASE_CONFIRMED;
}

/* Whether the gate reaches zero now: LAST, or OK. */
static uint32_t release(struct gate *g)
{
    if (g->phase != PERCPU_GATE_PHASE_DEAD || g->held > 0 || g->zero)
        return PERCPU_GATE_OK;
    g->zero = true;
    return PERCPU_GATE_LAST;
}

/* Mostly a slot of the gate. */
static uint32_t some_slot(const struct gate *g)
{
    return g && any_below(8) ? any_below(g->slots) : any_below(70);
}

static uint32_t some_amount(void)
{
    static const uint32_t amounts[] = {0, 1, 1, 2, 3, 65534, 65535, 65536, UINT32_MAX};
    return amounts[any_below(sizeof amounts / sizeof *amounts)];
}

static void make(uint32_t c)
{
    uint32_t slots = any_below(6) ? 1 + any_below(4) : any_below(600);
    uint32_t out = any_below(6) ? 1 + any_below(4) : any_below(1200);
    uint32_t start = any_below(8) ? any_below(3) : 3;
    bool fits = slots >= 1 && slots <= 512 && out >= 1 && out <= 1024 && start <= 2, dead = start == PERCPU_GATE_START_DEAD;
    uint64_t words[8];
    for (int k = 0; k < 8; k++)
        words[k] = any_word();
    uint32_t want = controls[c].gate ? PERCPU_GATE_ERR_OPEN : fits ? PERCPU_GATE_OK : PERCPU_GATE_ERR_BAD_SIZE;
    IS(percpu_gate_new(&controls[c].handle, slots, out, start, words), want);
    if (want)
        return;
    *next_gate = (struct gate){.slots = slots, .waiting = out, .out = out, .dead = dead, .zero = dead, .front = dead};
    next_gate->phase = dead ? PERCPU_GATE_PHASE_DEAD : start;
    next_gate->wants = start == PERCPU_GATE_START_ATOMIC ? PERCPU_GATE_PHASE_LIVE_ATOMIC : PERCPU_GATE_PHASE_LIVE_ON_SLOTS;
    memcpy(next_gate->words, words, sizeof words);
    next_gate->number = percpu_gate_control_number(&controls[c].handle);
    IS(next_gate->number > (next_gate == gates ? 0 : next_gate[-1].number), true); /* no other gate has it */
    controls[c].gate = next_gate++;
}

static void give(uint32_t c, uint32_t p)
{
    struct gate *g = controls[c].gate;
    uint32_t want = !g               ? PERCPU_GATE_ERR_CLOSED
                    : passes[p].gate ? PERCPU_GATE_ERR_OPEN
                    : g->waiting     ? PERCPU_GATE_OK
                                     : PERCPU_GATE_ERR_NO_PASS;
    IS(percpu_gate_next_pass(&controls[c].handle, &passes[p].handle), want);
    if (want)
        return;
    g->waiting--;
    passes[p].gate = g;
    passes[p].held = 0;
    passes[p].releases = 0;
}

static void retire(uint32_t c, uint32_t p)
{
    struct gate *g = controls[c].gate;
    uint32_t want = !g || !passes[p].gate ? PERCPU_GATE_ERR_CLOSED
                    : passes[p].gate != g ? PERCPU_GATE_ERR_OTHER_GATE
                    : passes[p].held      ? PERCPU_GATE_ERR_STILL_HELD
                                          : PERCPU_GATE_OK;
    IS(percpu_gate_retire(&controls[c].handle, &passes[p].handle), want);
    if (want)
        return;
    g->out--;
    g->releases += passes[p].releases;
    passes[p].gate = NULL;
}

static void end(uint32_t c)
{
    struct gate *g = controls[c].gate;
    percpu_gate_final last = {.kills = UNWRITTEN};
    uint32_t want = !g             ? PERCPU_GATE_ERR_CLOSED
                    : in_a_kill(g) ? PERCPU_GATE_ERR_MID_SWITCH
                    : g->out > g->waiting ? PERCPU_GATE_ERR_PASSES_OUT
                                   : PERCPU_GATE_OK;
    IS(percpu_gate_exit(&controls[c].handle, &last), want);
    IS(last.kills, want ? UNWRITTEN : g->kills);
    if (want)
        return;
    IS(last.dead, g->phase == PERCPU_GATE_PHASE_DEAD);
    IS(last.releases, g->releases);
    IS(memcmp(last.words, g->words, sizeof last.words) != 0, false);
    controls[c].gate = NULL;
}

static void take(uint32_t p, bool live)
{
    struct gate *g = passes[p].gate;
    uint32_t slot = some_slot(g);
    uint32_t want = PERCPU_GATE_ERR_CLOSED;
    if (g && slot >= g->slots)
        want = PERCPU_GATE_ERR_BAD_SLOT;
    else if (g && passes[p].held == HELD_MOST)
        want = PERCPU_GATE_ERR_HELD_FULL;
    else if (g && live && g->phase == PERCPU_GATE_PHASE_CLOSING) /* a slot that isn't closed yet gives still */
        want = slot < g->closed ? PERCPU_GATE_NOT_GIVEN : PERCPU_GATE_OK;
    else if (g)
        want = (live ? g->dead : g->zero) ? PERCPU_GATE_NOT_GIVEN : PERCPU_GATE_OK;
    IS((live ? percpu_gate_try_get_live : percpu_gate_try_get)(&passes[p].handle, slot), want);
    if (want)
        return;
    passes[p].held++;
    g->held++;
}

static void get(uint32_t p)
{
    struct gate *g = passes[p].gate;
    uint32_t slot = some_slot(g), n = some_amount();
    uint32_t want = !g                                         ? PERCPU_GATE_ERR_CLOSED
                    : slot >= g->slots                         ? PERCPU_GATE_ERR_BAD_SLOT
                    : !passes[p].held                          ? PERCPU_GATE_ERR_NOT_HELD
                    : !n                                       ? PERCPU_GATE_ERR_BAD_AMOUNT
                    : (uint64_t)passes[p].held + n > HELD_MOST ? PERCPU_GATE_ERR_HELD_FULL
                                                               : PERCPU_GATE_OK;
    IS(percpu_gate_get(&passes[p].handle, slot, n), want);
    if (want)
        return;
    passes[p].held += n;
    g->held += n;
}

static void put(uint32_t p)
{
    struct gate *g = passes[p].gate;
    uint32_t slot = some_slot(g), n = any_below(2) ? passes[p].held : some_amount();
    uint32_t want = !g                   ? PERCPU_GATE_ERR_CLOSED
                    : slot >= g->slots   ? PERCPU_GATE_ERR_BAD_SLOT
                    : !n                 ? PERCPU_GATE_ERR_BAD_AMOUNT
                    : n > passes[p].held ? PERCPU_GATE_ERR_NOT_HELD
                                         : PERCPU_GATE_OK;
    if (!want) {
        passes[p].held -= n;
        g->held -= n;
        want = release(g);
        passes[p].releases += want;
    }
    IS(percpu_gate_put(&passes[p].handle, slot, n), want);
}

static void look(uint32_t p)
{
    struct gate *g = passes[p].gate;
    uint64_t front = UNWRITTEN, word = UNWRITTEN;
    uint32_t k = any_below(10);
    uint32_t want = !g                ? PERCPU_GATE_ERR_CLOSED
                    : !passes[p].held ? PERCPU_GATE_ERR_NOT_HELD
                    : k >= 8          ? PERCPU_GATE_ERR_BAD_WORD
                                      : PERCPU_GATE_OK;
    IS(percpu_gate_is_dying(&passes[p].handle), g && g->dead);
    IS(percpu_gate_is_zero(&passes[p].handle), g && g->zero);
    IS(percpu_gate_pass_number(&passes[p].handle), g ? g->number : 0);
    IS(percpu_gate_front(&passes[p].handle, &front), g ? PERCPU_GATE_OK : PERCPU_GATE_ERR_CLOSED);
    IS(front, g ? g->front : UNWRITTEN);
    IS(percpu_gate_word(&passes[p].handle, k, &word), want);
    IS(word, want ? UNWRITTEN : g->words[k]);
}

/* What a call is answered that may not come in the midst of a kill. */
static uint32_t refusal(const struct gate *g, uint32_t if_dead, uint32_t if_live)
{
    if (!g)
        return PERCPU_GATE_ERR_CLOSED;
    if (in_a_kill(g))
        return PERCPU_GATE_ERR_MID_SWITCH;
    return g->phase == PERCPU_GATE_PHASE_DEAD ? if_dead : if_live;
}

static uint32_t kill_refusal(const struct gate *g) { return refusal(g, PERCPU_GATE_ERR_ALREADY_DEAD, PERCPU_GATE_OK); }

static void kill(uint32_t c)
{
    struct gate *g = controls[c].gate;
    uint32_t want = kill_refusal(g);
    if (!want) {
        g->kills++;
        g->front++;
        g->dead = true;
        g->phase = PERCPU_GATE_PHASE_DEAD;
        want = release(g);
        g->releases += want;
    }
    IS(percpu_gate_kill(&controls[c].handle), want);
}

static void mark_dead(uint32_t c)
{
    struct gate *g = controls[c].gate;
    uint32_t want = kill_refusal(g), slots = UNWRITTEN;
    bool open = g && g->phase == PERCPU_GATE_PHASE_LIVE_ON_SLOTS;
    IS(percpu_gate_mark_dead(&controls[c].handle, &slots), want);
    IS(slots, want ? UNWRITTEN : open ? g->slots : 0);
    if (want)
        return;
    g->kills++;
    g->dead = true;
    g->closed = 0;
    g->phase = open ? PERCPU_GATE_PHASE_CLOSING : PERCPU_GATE_PHASE_COLLECTED;
}

static void step(uint32_t c)
{
    struct gate *g = controls[c].gate;
    bool closing = g && g->phase == PERCPU_GATE_PHASE_CLOSING;
    bool due[4] = {
        closing && g->closed < g->slots,
        closing && g->closed == g->slots,
        g && g->phase == PERCPU_GATE_PHASE_COLLECTED,
        g && g->phase == PERCPU_GATE_PHASE_CONFIRMED,
    };
    uint64_t front = UNWRITTEN;
    uint32_t k = any_below(4), want = due[k] ? PERCPU_GATE_OK : g ? PERCPU_GATE_ERR_BAD_STEP : PERCPU_GATE_ERR_CLOSED;
    if (k == 0) {
        IS(percpu_gate_close_next(&controls[c].handle), want);
        if (due[k])
            g->closed++;
    } else if (k == 1) {
        IS(percpu_gate_collect(&controls[c].handle), want);
        if (due[k])
            g->phase = PERCPU_GATE_PHASE_COLLECTED;
    } else if (k == 2) {
        IS(percpu_gate_confirm(&controls[c].handle, &front), want);
        IS(front, due[k] ? ++g->front : UNWRITTEN);
        if (due[k])
            g->phase = PERCPU_GATE_PHASE_CONFIRMED;
    } else {
        if (due[k]) {
            g->phase = PERCPU_GATE_PHASE_DEAD;
            want = release(g);
            g->releases += want;
        }
        IS(percpu_gate_drop_base(&controls[c].handle), want);
    }
}

static uint32_t dead_refusal(const struct gate *g) { return refusal(g, PERCPU_GATE_OK, PERCPU_GATE_ERR_NOT_DEAD); }

static void revive(uint32_t c, bool from_zero)
{
    struct gate *g = controls[c].gate;
    uint32_t want = dead_refusal(g);
    if (from_zero)
        IS(percpu_gate_reinit(&controls[c].handle), want ? want : g->zero ? PERCPU_GATE_OK : PERCPU_GATE_ERR_NOT_ZERO);
    else
        IS(percpu_gate_resurrect(&controls[c].handle), want ? want : g->zero ? PERCPU_GATE_WAS_AT_ZERO : PERCPU_GATE_OK);
    if (want || (from_zero && !g->zero))
        return;
    g->zero = g->dead = false;
    g->front++;
    g->phase = g->wants;
}

static void change_mode(uint32_t c, bool atomic)
{
    struct gate *g = controls[c].gate;
    uint32_t want = !g ? PERCPU_GATE_ERR_CLOSED : in_a_kill(g) ? PERCPU_GATE_ERR_MID_SWITCH : PERCPU_GATE_OK;
    IS((atomic ? percpu_gate_switch_to_atomic : percpu_gate_switch_to_slots)(&controls[c].handle), want);
    if (want)
        return;
    g->wants = atomic ? PERCPU_GATE_PHASE_LIVE_ATOMIC : PERCPU_GATE_PHASE_LIVE_ON_SLOTS;
    if (g->phase != PERCPU_GATE_PHASE_DEAD)
        g->phase = g->wants;
}

static void store(uint32_t c)
{
    struct gate *g = controls[c].gate;
    uint32_t k = any_below(10), want = dead_refusal(g);
    uint64_t v = any_word();
    want = g && k >= 8 ? PERCPU_GATE_ERR_BAD_WORD : want ? want : g->zero ? PERCPU_GATE_OK : PERCPU_GATE_ERR_NOT_ZERO;
    IS(percpu_gate_store_word(&controls[c].handle, k, v), want);
    if (!want)
        g->words[k] = v;
}

static void ask(uint32_t c)
{
    struct gate *g = controls[c].gate;
    uint32_t want = g ? PERCPU_GATE_OK : PERCPU_GATE_ERR_CLOSED;
    uint64_t kills = UNWRITTEN, releases = UNWRITTEN, words[8] = {UNWRITTEN};
    IS(percpu_gate_phase(&controls[c].handle), g ? g->phase : PERCPU_GATE_ERR_CLOSED);
    IS(percpu_gate_control_is_zero(&controls[c].handle), g && g->zero);
    IS(percpu_gate_control_number(&controls[c].handle), g ? g->number : 0);
    IS(percpu_gate_kill_count(&controls[c].handle, &kills), want);
    IS(percpu_gate_release_count(&controls[c].handle, &releases), want);
    IS(percpu_gate_all_words(&controls[c].handle, words), want);
    IS(kills, g ? g->kills : UNWRITTEN);
    IS(releases, g ? g->releases : UNWRITTEN);
    IS(words[0], g ? g->words[0] : UNWRITTEN);
    IS(g && memcmp(words, g->words, sizeof words) != 0, false);
}

static void let_go(uint32_t c, uint32_t p)
{
    if (any_below(2)) {
        percpu_gate_free_control(&controls[c].handle);
        controls[c].gate = NULL;
    } else {
        percpu_gate_free_pass(&passes[p].handle); /* what it held, it holds for ever */
        passes[p].gate = NULL;
    }
}

static void call(uint32_t c, uint32_t p)
{
    switch (any_below(30)) {
    case 0: case 1: make(c); break;
    case 2: case 3: case 4: give(c, p); break;
    case 5: case 6: retire(c, p); break;
    case 7: end(c); break;
    case 8: case 9: take(p, false); break;
    case 10: case 11: take(p, true); break;
    case 12: case 13: get(p); break;
    case 14: case 15: case 16: put(p); break;
    case 17: look(p); break;
    case 18: case 19: kill(c); break;
    case 20: mark_dead(c); break;
    case 21: case 22: case 23: step(c); break;
    case 24: case 25: revive(c, any_below(2)); break;
    case 26: change_mode(c, any_below(2)); break;
    case 27: store(c); break;
    case 28: ask(c); break;
    default: if (any_below(20) == 0) let_go(c, p);
    }
}

int main(int argc, char **argv)
{
    seed = argc > 1 ? strtoull(argv[1], NULL, 10) : 1;
    long most = argc > 2 ? atol(argv[2]) : 1000000;
    for (calls = 0; calls < most && next_gate < gates + GATES; calls++) {
        call(any_below(CONTROLS), any_below(PASSES));
        for (int i = 0; i < PASSES; i++)
            IS(passes[i].handle.is_open, passes[i].gate != NULL);
        for (int i = 0; i < CONTROLS; i++)
            IS(controls[i].handle.is_open, controls[i].gate != NULL);
    }
    for (int i = 0; i < PASSES; i++)
        percpu_gate_free_pass(&passes[i].handle);
    for (int i = 0; i < CONTROLS; i++)
        percpu_gate_free_control(&controls[i].handle);
    printf("%ld calls, %ld gates\n", calls, (long)(next_gate - gates));
    return 0;
}
