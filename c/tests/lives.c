/* What a gate keeps in its later lives too, as its own memory shows, which no program may read: the slot that a call names is
 * the one that counts, of however many; a pass that is freed holds on; a control that is freed leaves the slots open; no pass runs
 * out by kills. (Linked with --wrap=malloc and free.) */
#include "percpu_gate.h"

#include "inside.h"

enum { SLOTS = PERCPU_GATE_MOST_SLOTS, LIVES = 1200, MANY_LIVES = 100000 };

#define IS(call, want) is(#call, call, PERCPU_GATE_##want, __LINE__)

/* A slot's word is this where it is open and nothing is counted on it. */
static const uint64_t EMPTY = (uint64_t)1 << 32;

static const uint64_t words[8] = {3};
static percpu_gate_control control;
static percpu_gate_pass passes[3];
static percpu_gate_final last;

static void make_with(uint32_t slots)
{
    IS(percpu_gate_new(&control, slots, 2, PERCPU_GATE_START_SLOTS, words), OK);
    IS(percpu_gate_next_pass(&control, &passes[0]), OK);
}

static void make(void) { make_with(SLOTS); }

/* What may be the word of a slot, by what a pass counts on it and takes back. */
static void look_at(uint32_t slot)
{
    IS(percpu_gate_try_get(&passes[0], slot), OK);
    first_look(EMPTY + 1);
    IS(percpu_gate_get(&passes[0], slot, 4), OK);
    look_again(EMPTY + 5);
    IS(percpu_gate_put(&passes[0], slot, 5), OK);
    look_again(EMPTY);
}

/* The word of a slot. What the pass holds counts another slot too. */
static uint64_t *slot_word(uint32_t slot)
{
    look_at(slot);
    IS(percpu_gate_try_get(&passes[0], (slot + 1) % SLOTS), OK);
    look_again(EMPTY);
    IS(percpu_gate_put(&passes[0], (slot + 1) % SLOTS, 1), OK);
    return the_word("a slot");
}

/* The same where there may be no other slot: another pass counts it too. */
static uint64_t *slot_word_of_both(uint32_t slot)
{
    look_at(slot);
    IS(percpu_gate_try_get(&passes[1], slot), OK);
    look_again(EMPTY + 1);
    IS(percpu_gate_put(&passes[1], slot, 1), OK);
    look_again(EMPTY);
    return the_word("a slot");
}

/* A life more, of which the pass sees the odd front and the even one. */
static void live_again(uint64_t life)
{
    uint64_t front = 0;
    IS(percpu_gate_kill(&control), LAST);
    IS(percpu_gate_front(&passes[0], &front), OK);
    TELLS(front, 2 * life + 1);
    IS(percpu_gate_reinit(&control), OK);
    IS(percpu_gate_front(&passes[0], &front), OK);
    TELLS(front, 2 * life + 2);
}

static void counts_on(uint32_t slot, const uint64_t *word)
{
    IS(percpu_gate_try_get(&passes[0], slot), OK);
    TELLS(*word, EMPTY + 1);
    IS(percpu_gate_try_get_live(&passes[0], slot), OK);
    TELLS(*word, EMPTY + 2);
    IS(percpu_gate_get(&passes[0], slot, 3), OK);
    TELLS(*word, EMPTY + 5);
    IS(percpu_gate_put(&passes[0], slot, 1), OK);
    TELLS(*word, EMPTY + 4);
    IS(percpu_gate_put(&passes[0], slot, 4), OK);
    TELLS(*word, EMPTY);
}

/* In each life each call counts on the slot that it names; and a pass that is asked for in the last life is there. */
static void slots_in_each_life(void)
{
    uint64_t *slots[SLOTS];
    make();
    for (uint32_t slot = 0; slot < SLOTS; slot++)
        slots[slot] = slot_word(slot);
    for (uint64_t life = 0; life < LIVES; life++) {
        for (uint32_t slot = 0; slot < SLOTS; slot++)
            counts_on(slot, slots[slot]);
        live_again(life);
    }
    IS(percpu_gate_next_pass(&control, &passes[1]), OK);
    IS(percpu_gate_try_get_live(&passes[1], SLOTS - 1), OK);
    TELLS(*slots[SLOTS - 1], EMPTY + 1);
    IS(percpu_gate_put(&passes[1], SLOTS - 1, 1), OK);
    IS(percpu_gate_retire(&control, &passes[0]), OK);
    IS(percpu_gate_retire(&control, &passes[1]), OK);
    IS(percpu_gate_exit(&control, &last), OK);
    TELLS(last.kills, LIVES);
    TELLS(blocks_now(), 0);
}

/* The same of a pass that holds so many. */
static void counts_above(uint32_t slot, const uint64_t *word, uint32_t held)
{
    IS(percpu_gate_try_get(&passes[0], slot), OK);
    IS(percpu_gate_get(&passes[0], slot, held - 1), OK);
    TELLS(*word, EMPTY + held);
    IS(percpu_gate_try_get(&passes[0], slot), OK);
    TELLS(*word, EMPTY + held + 1);
    IS(percpu_gate_try_get_live(&passes[0], slot), OK);
    TELLS(*word, EMPTY + held + 2);
    IS(percpu_gate_put(&passes[0], slot, 2), OK);
    TELLS(*word, EMPTY + held);
    IS(percpu_gate_put(&passes[0], slot, held), OK);
    TELLS(*word, EMPTY);
}

/* Of a gate with so many slots each call counts on the slot that it names, whatever the pass holds. */
static void slots_of(uint32_t slots)
{
    static const uint32_t amounts[] = {2, 1000, 32768, 50001, PERCPU_GATE_MOST_HELD - 2};
    make_with(slots);
    IS(percpu_gate_next_pass(&control, &passes[1]), OK);
    for (uint32_t slot = 0; slot < slots; slot++) {
        const uint64_t *word = slot_word_of_both(slot);
        counts_on(slot, word);
        for (size_t i = 0; i < sizeof amounts / sizeof *amounts; i++)
            counts_above(slot, word, amounts[i]);
    }
    IS(percpu_gate_retire(&control, &passes[0]), OK);
    IS(percpu_gate_retire(&control, &passes[1]), OK);
    IS(percpu_gate_exit(&control, &last), OK);
    TELLS(blocks_now(), 0);
}

/* How a life ends: at zero by the kill, at zero by a put, or held until the gate is revived. */
enum { BY_KILL, BY_PUT, HELD, ENDS };

/* Ends a life so, and revives the gate. Returns whether it was released. */
static uint64_t dies_and_revives(int how)
{
    if (how != BY_KILL)
        IS(percpu_gate_try_get_live(&passes[0], 0), OK);
    TELLS(percpu_gate_kill(&control), how == BY_KILL ? PERCPU_GATE_LAST : PERCPU_GATE_OK);
    if (how == BY_PUT)
        IS(percpu_gate_put(&passes[0], 0, 1), LAST);
    TELLS(percpu_gate_resurrect(&control), how == HELD ? PERCPU_GATE_OK : PERCPU_GATE_WAS_AT_ZERO);
    if (how == HELD)
        IS(percpu_gate_put(&passes[0], 0, 1), OK);
    return how != HELD;
}

/* A gate with this start that was killed and revived very often gives its last pass, and ends. Each life ends in this way, or each in one
 * of the three. */
static void an_old_gate(uint32_t start, int how)
{
    uint64_t releases = 0;
    IS(percpu_gate_new(&control, 1, 2, start, words), OK);
    IS(percpu_gate_next_pass(&control, &passes[0]), OK);
    if (start == PERCPU_GATE_START_DEAD)
        IS(percpu_gate_reinit(&control), OK);
    for (uint64_t life = 0; life < MANY_LIVES; life++)
        releases += dies_and_revives(how == ENDS ? (int)(life * life % 7 % ENDS) : how);
    IS(percpu_gate_next_pass(&control, &passes[1]), OK);
    IS(percpu_gate_next_pass(&control, &passes[2]), ERR_NO_PASS);
    IS(percpu_gate_retire(&control, &passes[0]), OK);
    IS(percpu_gate_retire(&control, &passes[1]), OK);
    IS(percpu_gate_exit(&control, &last), OK);
    TELLS(last.kills, MANY_LIVES);
    TELLS(last.releases, releases);
    TELLS(blocks_now(), 0);
}

/* The word of the last slot, of a gate that has had so many lives. */
static uint64_t *last_slot_after(uint64_t lives)
{
    make();
    uint64_t *word = slot_word(SLOTS - 1);
    for (uint64_t life = 0; life < lives; life++)
        live_again(life);
    return word;
}

/* What a freed pass holds, on its slot, it holds for ever, in whichever life. */
static void a_freed_pass(uint64_t lives)
{
    uint64_t *word = last_slot_after(lives);
    IS(percpu_gate_try_get_live(&passes[0], SLOTS - 1), OK);
    IS(percpu_gate_get(&passes[0], SLOTS - 1, 6), OK);
    percpu_gate_free_pass(&passes[0]);
    TELLS(*word, EMPTY + 7);
    TELLS(percpu_gate_kill(&control), PERCPU_GATE_OK);
    TELLS(percpu_gate_control_is_zero(&control), false);
    percpu_gate_free_control(&control);
    TELLS(blocks_now(), 0);
}

/* A control that is freed closes no slot, in whichever life: its passes count on. */
static void a_freed_control(uint64_t lives)
{
    uint64_t *word = last_slot_after(lives);
    percpu_gate_free_control(&control);
    counts_on(SLOTS - 1, word);
    percpu_gate_free_pass(&passes[0]);
    TELLS(blocks_now(), 0);
}

int main(void)
{
    slots_in_each_life();
    for (uint32_t slots = 1; slots <= 64; slots++)
        slots_of(slots);
    slots_of(SLOTS);
    for (uint32_t start = 0; start < 3; start++)
        for (int how = BY_KILL; how <= ENDS; how++)
            an_old_gate(start, how);
    for (uint64_t lives = 0; lives < 3; lives++) {
        a_freed_pass(lives);
        a_freed_control(lives);
    }
    a_freed_pass(LIVES);
    a_freed_control(LIVES);
    printf("%s\n", failures ? "FAILED" : "kept");
    return failures != 0;
}
