/* Explores all orders of races on the kernel's own percpu_ref. Reads races (docs/races/README.md, with the calls that Linux has), each
 * followed by a line `run`, and prints the outcomes of each once, and the number of its moments. From each moment the search goes on once
 * with a step of each actor that may go; memory and stacks are copied so that it can come back.
 *
 * usage: orders [MOST]    gives up a race of more than MOST moments (10,000,000) */
#include "orders.h"
#include "lines.h"

struct world world;
struct place places[ACTORS];
char stacks[ACTORS][STACK] __attribute__((aligned(64)));
int now = -1;
jmp_buf explorer;

/* The lowest address of the caller's stack that is in use; on other processors some more below it. */
static inline char *stack_top(void)
{
    char *at = (char *)__builtin_frame_address(0) - 256;
#if defined(__x86_64__)
    __asm__ volatile("mov %%rsp, %0" : "=r"(at));
#elif defined(__aarch64__)
    __asm__ volatile("mov %0, sp" : "=r"(at));
#endif
    return at;
}

void __attribute__((noinline)) leave_actor(void)
{
    int me = now;
    places[me].low = stack_top();
    if (!_setjmp(places[me].at))
        _longjmp(explorer, 1);
}

/* Lets an actor take its next step. */
static void __attribute__((noinline)) go_on(int it)
{
    now = it;
    if (!_setjmp(explorer))
        _longjmp(places[it].at, 1);
    now = -1;
}

/* A moment that was seen and isn't left yet, as bytes. */
struct moment { struct moment *below; size_t size; char bytes[]; };
static struct moment *unseen;

static size_t shared_size(void) { return __stop_shim_shared - __start_shim_shared; }
static size_t stack_size(int it) { return stacks[it] + STACK - places[it].low; }

static void keep(void)
{
    size_t size = sizeof world + sizeof places + shared_size();
    for (int it = 0; it < ACTORS; it++)
        size += stack_size(it);
    struct moment *kept = malloc(sizeof *kept + size);
    if (!kept)
        exit(4);
    char *to = kept->bytes;
    memcpy(to, &world, sizeof world), to += sizeof world;
    memcpy(to, places, sizeof places), to += sizeof places;
    memcpy(to, __start_shim_shared, shared_size()), to += shared_size();
    for (int it = 0; it < ACTORS; it++)
        memcpy(to, places[it].low, stack_size(it)), to += stack_size(it);
    kept->below = unseen;
    kept->size = size;
    unseen = kept;
}

static void come_back(const struct moment *kept)
{
    const char *from = kept->bytes;
    memcpy(&world, from, sizeof world), from += sizeof world;
    memcpy(places, from, sizeof places), from += sizeof places;
    memcpy(__start_shim_shared, from, shared_size()), from += shared_size();
    for (int it = 0; it < ACTORS; it++)
        memcpy(places[it].low, from, stack_size(it)), from += stack_size(it);
}

/* Two sums of 64 bits over all that decides how the race goes on. */
struct sum { uint64_t one, two; };

static struct sum sum_of(const void *bytes, size_t size, struct sum sum)
{
    uint64_t word;
    for (const char *it = bytes; size; it += sizeof word, size -= size < sizeof word ? size : sizeof word) {
        word = 0;
        memcpy(&word, it, size < sizeof word ? size : sizeof word);
        sum.one = (sum.one ^ word) * 0x9e3779b97f4a7c15u;
        sum.one ^= sum.one >> 32;
        sum.two = (sum.two + word) * 0xc2b2ae3d27d4eb4fu;
        sum.two ^= sum.two >> 29;
    }
    return sum;
}

static struct sum here(void)
{
    struct sum sum = sum_of(&world, sizeof world, (struct sum){1, 2});
    for (int it = 0; it < ACTORS; it++) {
        sum = sum_of(places[it].at[0].__jmpbuf, sizeof places[it].at[0].__jmpbuf, sum);
        sum = sum_of(places[it].low, stack_size(it), sum);
    }
    return sum_of(__start_shim_shared, shared_size(), sum);
}

/* Sums that were met, in a table that grows. */
struct table { struct sum *at; size_t room, count; };
static struct table met, ends;

static bool is_new(struct table *table, struct sum sum)
{
    if (table->count * 2 >= table->room) {
        struct table wider = {calloc(table->room ? table->room * 4 : 1024, sizeof sum), table->room ? table->room * 4 : 1024, 0};
        if (!wider.at)
            exit(4);
        for (size_t it = 0; it < table->room; it++)
            if (table->at[it].one)
                is_new(&wider, table->at[it]);
        free(table->at);
        *table = wider;
    }
    sum.one |= 1;
    size_t it = sum.two & (table->room - 1);
    for (; table->at[it].one; it = (it + 1) & (table->room - 1))
        if (table->at[it].one == sum.one && table->at[it].two == sum.two)
            return false;
    table->at[it] = sum;
    table->count++;
    return true;
}

static void emptied(struct table *table)
{
    if (table->room)
        memset(table->at, 0, table->room * sizeof *table->at);
    table->count = 0;
}

static bool may_go(const struct actor *it)
{
    switch (it->status) {
    case READY: return !it->waits_for;
    case LOCKED: return !it->lock->holder;
    case ASLEEP: return it->is_woken;
    default: return false;
    }
}

static void tell_end(void)
{
    uint8_t key[256];
    size_t size = outcome_key(key);
    if (!is_new(&ends, sum_of(key, size, (struct sum){1, 2})))
        return;
    printf("outcome %zu\n", ends.count);
    print_outcome();
}

/* Goes on from a moment by each actor that may go. */
static void leave(const struct moment *from)
{
    bool is_end = true;
    for (int it = 0; it < ACTORS && !is_new_place; it++) {
        if (!it || !is_end)
            come_back(from);
        if (!may_go(&world.actors[it]))
            continue;
        is_end = false;
        world.actors[it].status = READY;
        go_on(it);
        if (is_new(&met, here()))
            keep();
    }
    if (is_end)
        tell_end();
}

static void forget(void)
{
    while (unseen) {
        struct moment *it = unseen;
        unseen = it->below;
        free(it);
    }
}

/* Whether all moments were seen. Where two actors meet at a word for the first time, its accesses become steps: from the start
 * again. */
static bool explored(size_t most)
{
    do {
        is_new_place = false;
        emptied(&met);
        emptied(&ends);
        forget();
        begin_actors();
        is_new(&met, here());
        keep();
        while (unseen && !is_new_place && met.count <= most) {
            struct moment *it = unseen;
            unseen = it->below;
            leave(it);
            free(it);
        }
    } while (is_new_place);
    return !unseen;
}

static void read_calls(unsigned actor)
{
    for (unsigned it = 1; it < line_count;) {
        if (actor > CONTROL || race.counts[actor] == CALLS)
            exit(2);
        struct call *call = &race.calls[actor][race.counts[actor]++];
        *call = (struct call){.n = 1};
        snprintf(call->what, sizeof call->what, "%s", line_words[it++]);
        if (it < line_count && strcmp(line_words[it], "/"))
            call->slot = number(it++);
        if (it < line_count && strcmp(line_words[it], "/"))
            call->n = number(it++);
        it++;
    }
}

int main(int count, char **words)
{
    size_t most = count > 1 ? strtoull(words[1], NULL, 10) : 10000000;
    while (next_line()) {
        if (is("world")) {
            memset(&race, 0, sizeof race);
            race.slots = number(1);
            race.passes = number(2);
            snprintf(race.start, sizeof race.start, "%s", line_words[3]);
        } else if (is("run")) {
            bool is_whole = explored(most);
            printf("outcomes %zu moments %zu%s", ends.count, met.count, is_whole ? "" : " given up");
            printf(warned ? ", the kernel warns: %s\n" : "\n", warned);
            fflush(stdout);
        } else if (!is("races")) {
            read_calls(is("c") ? CONTROL : number(0));
        }
    }
    return 0;
}
