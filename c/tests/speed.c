/* Times a round of the gate, a try and a put, beside the same steps in bare C and beside one shared counter, which guards
 * nothing. speed THREADS ROUNDS prints a line for each form, 'gate,FORM,THREADS,NANOSECONDS': the nanoseconds of a round by
 * the clock, of so many rounds on each of so many threads. */
#define _GNU_SOURCE
#include "percpu_gate.h"
#include "timing.h"

/* A gate, and each thread's pass. */
struct gate {
    percpu_gate_control control;
    struct { _Alignas(128) percpu_gate_pass pass; } of[MOST_THREADS];
};

static struct gate on_slots, on_one_slot, on_word;
static struct own_word words[MOST_THREADS], shared;

static void make(struct gate *gate, uint32_t slots, uint32_t start)
{
    static const uint64_t guarded[PERCPU_GATE_WORD_COUNT];
    need(percpu_gate_new(&gate->control, slots, threads, start, guarded) == PERCPU_GATE_OK, "no gate");
    for (uint32_t i = 0; i < threads; i++)
        need(percpu_gate_next_pass(&gate->control, &gate->of[i].pass) == PERCPU_GATE_OK, "no pass");
}

static void go_round(struct gate *gate, uint32_t number, uint32_t slot)
{
    percpu_gate_pass *pass = &gate->of[number].pass;
    for (long i = 0; i < rounds; i++) {
        need(percpu_gate_try_get_live(pass, slot) == PERCPU_GATE_OK, "a try is refused");
        need(percpu_gate_put(pass, slot, 1) == PERCPU_GATE_OK, "a put is refused");
    }
}

static void own_slots(uint32_t number) { go_round(&on_slots, number, number); }
static void one_slot(uint32_t number) { go_round(&on_one_slot, number, 0); }
static void atomic_mode(uint32_t number) { go_round(&on_word, number, number); }

static void bare_steps(uint32_t number)
{
    for (long i = 0; i < rounds; i++) {
        step(&words[number].count, 1);
        step(&words[number].count, UINT64_MAX);
    }
}

static void shared_counter(uint32_t number)
{
    (void)number;
    for (long i = 0; i < rounds; i++) {
        atomic_fetch_add(&shared.count, 1);
        atomic_fetch_sub(&shared.count, 1);
    }
}

static const struct { const char *name; void (*run)(uint32_t number); } forms[] = {
    {"gate from C", own_slots},
    {"gate from C on one slot", one_slot},
    {"gate from C in atomic mode", atomic_mode},
    {"the bare steps in C", bare_steps},
    {"one shared counter", shared_counter},
};

int main(int count, char **given)
{
    need(count == 3, "usage: speed THREADS ROUNDS");
    threads = (uint32_t)number_of(given[1], MOST_THREADS);
    rounds = number_of(given[2], 1000000000);
    make(&on_slots, threads, PERCPU_GATE_START_SLOTS);
    make(&on_one_slot, 1, PERCPU_GATE_START_SLOTS);
    make(&on_word, threads, PERCPU_GATE_START_ATOMIC);
    for (size_t i = 0; i < sizeof forms / sizeof *forms; i++)
        printf("gate,%s,%u,%.2f\n", forms[i].name, threads, at_once(forms[i].run, NULL) / (double)rounds);
    return 0;
}
