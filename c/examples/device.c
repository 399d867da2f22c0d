/* A device that is removed while two threads submit requests to it: the thread that puts the last reference frees it. */
#include "percpu_gate.h"
#include <pthread.h>
#include <stdatomic.h>
#include <stdio.h>
#include <stdlib.h>

static struct worker {
    _Alignas(128) percpu_gate_pass pass;
    atomic_long served;
} workers[2];
static atomic_ulong *device; /* counts the bytes that it was sent */
static atomic_int freed;

static void free_if_last(uint32_t answer)
{
    if (percpu_gate_is_last(answer)) {
        free(device);
        atomic_fetch_add(&freed, 1);
    }
}

static void *submit(void *of)
{
    struct worker *me = of;
    uint32_t slot = (uint32_t)(me - workers), answer; /* a slot of its own for each thread */
    uint64_t size; /* a setting of the gate, which stays the same while we hold a reference */
    while ((answer = percpu_gate_try_get_live(&me->pass, slot)) == PERCPU_GATE_OK) {
        if (percpu_gate_word(&me->pass, 0, &size) == PERCPU_GATE_OK)
            atomic_fetch_add(device, size); /* nobody frees it before our put */
        atomic_fetch_add(&me->served, 1);
        free_if_last(percpu_gate_put(&me->pass, slot, 1));
    }
    free_if_last(answer); /* the device is going */
    return NULL;
}

int main(void)
{
    static percpu_gate_control control;
    const uint64_t settings[8] = {512};
    pthread_t threads[2];
    percpu_gate_final last;
    if (!(device = calloc(1, sizeof *device)) || percpu_gate_new(&control, 2, 2, PERCPU_GATE_START_SLOTS, settings))
        return 1;
    for (int i = 0; i < 2; i++) {
        if (percpu_gate_next_pass(&control, &workers[i].pass) || pthread_create(&threads[i], NULL, submit, &workers[i]))
            return 1;
        while (atomic_load(&workers[i].served) < 1000) {}
    }
    free_if_last(percpu_gate_kill(&control)); /* from here on the device may be gone */
    for (int i = 0; i < 2; i++) {
        pthread_join(threads[i], NULL);
        printf("pass %d retired: %u\n", i, percpu_gate_retire(&control, &workers[i].pass));
    }
    printf("at zero: %u, freed %d time(s)\n", percpu_gate_control_is_zero(&control), freed);
    printf("exit: %u\n", percpu_gate_exit(&control, &last));
    printf("dead %d, kills %d, releases %d, word 0: %d\n", last.dead, (int)last.kills, (int)last.releases,
           (int)last.words[0]);
}
