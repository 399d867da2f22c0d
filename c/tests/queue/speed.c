/* Times a round of the queue (enter, read the limits, leave) and a change of its limits, beside the bare steps in C and
 * beside other guards of the same limits. speed THREADS ROUNDS CHANGES prints a line for each form,
 * 'queue,FORM,THREADS,NANOSECONDS': the nanoseconds of a round by the clock. Of a form whose limits can change a second
 * line follows, 'change,FORM,THREADS,MEDIAN,NINETY_NINTH,NANOSECONDS': the microseconds of a change under load, with a
 * pause of 100 microseconds before each, and the nanoseconds of a round meanwhile. liburcu is there with -DWITH_URCU
 * -lurcu-memb, and Concurrency Kit's lock for many readers with -DWITH_CK -lck. */
#define _GNU_SOURCE
#include "freeze_queue_pool.h"
#include "freeze_queue/lane.h"
#include "own_calls.h"

#include "../timing.h"
#include <linux/membarrier.h>
#include <sched.h>
#include <sys/syscall.h>
#include <unistd.h>
#ifdef WITH_URCU
#include <urcu/urcu-memb.h>
#endif
#ifdef WITH_CK
#include <ck_brlock.h>
#endif

enum { BATCH = 1024, PAUSE = 100000, MOST_CHANGES = 1000000 };

/* The limits that other guards than the queue have. */
struct limits { _Atomic uint32_t max, chunk, physical; };

static struct own_word words[MOST_THREADS], in[MOST_THREADS], done[MOST_THREADS];
static struct { _Alignas(128) freeze_queue_tag tag; } tags[MOST_THREADS];
static struct { _Alignas(128) struct limits limits; } guarded;
static struct { _Alignas(128) atomic_bool frozen; } asymmetric;
static struct { _Alignas(128) pthread_rwlock_t lock; } readers = {PTHREAD_RWLOCK_INITIALIZER};
static freeze_queue freezer, of_pool;
static freeze_queue_waits waits, waits_of_pool;
static freeze_queue_pool pool;
static atomic_ulong sink; /* so that no load is left out */

static uint64_t three_loads(struct limits *limits)
{
    return (uint64_t)atomic_load(&limits->max) + atomic_load(&limits->chunk) + atomic_load(&limits->physical);
}

static uint64_t limits_under(freeze_queue_tag *tag)
{
    freeze_queue_limits limits;
    need(freeze_queue_limits_of(tag, &limits) == FREEZE_QUEUE_OK, "no limits");
    return (uint64_t)limits.max + limits.chunk + limits.physical;
}

/* ---- Rounds: each returns the sum of the limits that it read ---- */

static uint64_t bare_steps(uint32_t number, long count)
{
    uint64_t sum = 0;
    for (long i = 0; i < count; i++) {
        step(&words[number].count, 1);
        sum += three_loads(&guarded.limits);
        step(&words[number].count, UINT64_MAX);
    }
    return sum;
}

static uint64_t at_the_queue(uint32_t number, long count)
{
    freeze_queue_tag *tag = &tags[number].tag;
    uint64_t sum = 0;
    for (long i = 0; i < count; i++) {
        need(freeze_queue_try_enter(tag, number) == FREEZE_QUEUE_OK, "not entered");
        sum += limits_under(tag);
        need(freeze_queue_leave(tag, number) == FREEZE_QUEUE_OK, "not left");
    }
    return sum;
}

static uint64_t with_a_bias(uint32_t number, long count)
{
    freeze_queue_tag *tag = &tags[number].tag;
    uint64_t sum = 0;
    for (long i = 0; i < count; i++) {
        need(freeze_queue_try_enter(tag, number) == FREEZE_QUEUE_OK, "not entered");
        sum += limits_under(tag);
        need(freeze_queue_leave_biased(tag, number) == FREEZE_QUEUE_OK, "not left");
    }
    return sum;
}

static uint64_t in_place(uint32_t number, long count)
{
    freeze_queue_tag *tag = &tags[number].tag;
    freeze_queue_limits limits;
    uint64_t sum = 0;
    for (long i = 0; i < count; i++) {
        need(freeze_queue_inline_try_enter(tag, number) == FREEZE_QUEUE_OK, "not entered");
        need(freeze_queue_inline_limits_of(tag, &limits) == FREEZE_QUEUE_OK, "no limits");
        sum += (uint64_t)limits.max + limits.chunk + limits.physical;
        need(freeze_queue_inline_leave_biased(tag, number) == FREEZE_QUEUE_OK, "not left");
    }
    return sum;
}

static uint64_t by_waits(uint32_t number, long count)
{
    freeze_queue_tag *tag = &tags[number].tag;
    uint64_t sum = 0;
    for (long i = 0; i < count; i++) {
        need(freeze_queue_waits_enter(&waits, tag, number, NULL) == FREEZE_QUEUE_OK, "not entered");
        sum += limits_under(tag);
        need(!freeze_queue_is_refused(freeze_queue_waits_leave(&waits, tag, number)), "not left");
    }
    return sum;
}

static uint64_t by_the_pool(uint32_t number, long count)
{
    uint64_t sum = 0;
    for (long i = 0; i < count; i++) {
        freeze_queue_tag *tag = freeze_queue_pool_take(&pool, number);
        need(tag != NULL && freeze_queue_try_enter(tag, number) == FREEZE_QUEUE_OK, "not entered");
        sum += limits_under(tag);
        need(freeze_queue_leave(tag, number) == FREEZE_QUEUE_OK, "not left");
        freeze_queue_pool_give(&pool, tag);
    }
    return sum;
}

static uint64_t under_the_lock(uint32_t number, long count)
{
    uint64_t sum = 0;
    (void)number;
    for (long i = 0; i < count; i++) {
        need(pthread_rwlock_rdlock(&readers.lock) == 0, "no lock");
        sum += three_loads(&guarded.limits);
        need(pthread_rwlock_unlock(&readers.lock) == 0, "no unlock");
    }
    return sum;
}

/* BRAVO (Dice and Kogan, 2019) over a lock: readers of a biased lock say in a word of their own that they read. A change takes the bias away, and
 * for nine times as long as that took the lock stays unbiased. */
static struct { _Alignas(128) atomic_bool is_biased; _Atomic double until; pthread_rwlock_t lock; } bravo = {true, 0, PTHREAD_RWLOCK_INITIALIZER};

static uint64_t by_bravo(uint32_t number, long count)
{
    _Atomic uint64_t *mine = &in[number].count;
    uint64_t sum = 0;
    for (long i = 0; i < count; i++) {
        if (atomic_load(&bravo.is_biased)) {
            atomic_exchange(mine, 1);
            bool is_in = atomic_load(&bravo.is_biased);
            if (is_in)
                sum += three_loads(&guarded.limits);
            atomic_store_explicit(mine, 0, memory_order_release);
            if (is_in)
                continue;
        }
        need(pthread_rwlock_rdlock(&bravo.lock) == 0, "no lock");
        if (!atomic_load(&bravo.is_biased) && now() >= atomic_load(&bravo.until))
            atomic_store(&bravo.is_biased, true);
        sum += three_loads(&guarded.limits);
        need(pthread_rwlock_unlock(&bravo.lock) == 0, "no unlock");
    }
    return sum;
}

/* Plain stores by the readers, a barrier in all of them by the one that changes: nothing is lighter and still drains. */
static uint64_t by_membarrier(uint32_t number, long count)
{
    _Atomic uint64_t *mine = &in[number].count;
    uint64_t sum = 0;
    for (long i = 0; i < count; i++) {
        for (;;) {
            atomic_store_explicit(mine, 1, memory_order_relaxed);
            atomic_signal_fence(memory_order_seq_cst);
            if (!atomic_load_explicit(&asymmetric.frozen, memory_order_acquire))
                break;
            atomic_store_explicit(mine, 0, memory_order_release);
            sched_yield();
        }
        sum += three_loads(&guarded.limits);
        atomic_store_explicit(mine, 0, memory_order_release);
    }
    return sum;
}

/* ---- Changes: of the greatest size of a request, to MAX sectors ---- */

static void change_queue(uint32_t max)
{
    freeze_queue_limits limits = {.hardware = 64, .max = max, .chunk = 128, .physical = 8};
    need(freeze_queue_waits_change(&waits, &limits, NULL) == FREEZE_QUEUE_OK, "no change");
}

static void change_under_lock(uint32_t max)
{
    need(pthread_rwlock_wrlock(&readers.lock) == 0, "no lock");
    atomic_store(&guarded.limits.max, max);
    need(pthread_rwlock_unlock(&readers.lock) == 0, "no unlock");
}

static void change_by_bravo(uint32_t max)
{
    need(pthread_rwlock_wrlock(&bravo.lock) == 0, "no lock");
    if (atomic_load(&bravo.is_biased)) {
        double began = now();
        atomic_store(&bravo.is_biased, false);
        for (uint32_t i = 0; i < threads; i++)
            while (atomic_load(&in[i].count))
                sched_yield();
        atomic_store(&bravo.until, now() + 9 * (now() - began));
    }
    atomic_store(&guarded.limits.max, max);
    need(pthread_rwlock_unlock(&bravo.lock) == 0, "no unlock");
}

static void change_by_membarrier(uint32_t max)
{
    atomic_store(&asymmetric.frozen, true);
    need(syscall(SYS_membarrier, MEMBARRIER_CMD_PRIVATE_EXPEDITED, 0, 0) == 0, "no barrier");
    for (uint32_t i = 0; i < threads; i++)
        while (atomic_load_explicit(&in[i].count, memory_order_acquire))
            sched_yield();
    atomic_store(&guarded.limits.max, max);
    atomic_store_explicit(&asymmetric.frozen, false, memory_order_release);
}

#ifdef WITH_URCU
static struct limits *current;

static uint64_t by_urcu(uint32_t number, long count)
{
    uint64_t sum = 0;
    (void)number;
    for (long i = 0; i < count; i++) {
        urcu_memb_read_lock();
        sum += three_loads(rcu_dereference(current));
        urcu_memb_read_unlock();
    }
    return sum;
}

static void change_by_urcu(uint32_t max)
{
    struct limits *before = current, *next = malloc(sizeof *next);
    need(next != NULL, "no memory");
    *next = (struct limits){.max = max, .chunk = 128, .physical = 8};
    rcu_assign_pointer(current, next);
    urcu_memb_synchronize_rcu();
    free(before);
}
#endif

#ifdef WITH_CK
static ck_brlock_t big = CK_BRLOCK_INITIALIZER;
static struct { _Alignas(128) ck_brlock_reader_t reader; } seats[MOST_THREADS];

static uint64_t by_ck(uint32_t number, long count)
{
    uint64_t sum = 0;
    ck_brlock_read_register(&big, &seats[number].reader);
    for (long i = 0; i < count; i++) {
        ck_brlock_read_lock(&big, &seats[number].reader);
        sum += three_loads(&guarded.limits);
        ck_brlock_read_unlock(&seats[number].reader);
    }
    ck_brlock_read_unregister(&big, &seats[number].reader);
    return sum;
}

static void change_by_ck(uint32_t max)
{
    ck_brlock_write_lock(&big);
    atomic_store(&guarded.limits.max, max);
    ck_brlock_write_unlock(&big);
}
#endif

static const struct form {
    const char *name;
    uint64_t (*round_on)(uint32_t number, long count);
    void (*change)(uint32_t max);
} forms[] = {
    {"queue from C", at_the_queue, NULL},
    {"queue from C with a bias", with_a_bias, NULL},
    {"queue from C inline", in_place, NULL},
    {"queue from C by the waits", by_waits, change_queue},
    {"queue from C by a pool", by_the_pool, NULL},
    {"the bare steps in C", bare_steps, NULL},
    {"a bare count with membarrier", by_membarrier, change_by_membarrier},
#ifdef WITH_URCU
    {"liburcu (memb)", by_urcu, change_by_urcu},
#endif
#ifdef WITH_CK
    {"ck_brlock", by_ck, change_by_ck},
#endif
    {"BRAVO over pthread_rwlock", by_bravo, change_by_bravo},
    {"pthread_rwlock", under_the_lock, change_under_lock},
};

static const struct form *form;
static long changes;
static double *taken;
static atomic_bool is_over;

static void go_round(uint32_t number)
{
    atomic_fetch_add(&sink, form->round_on(number, rounds));
}

static void go_on(uint32_t number)
{
    uint64_t sum = 0, count = 0;
    do { /* at least once: the changes may be over before this thread runs */
        sum += form->round_on(number, BATCH);
        count += BATCH;
    } while (!atomic_load(&is_over));
    atomic_fetch_add(&sink, sum);
    atomic_store(&done[number].count, count);
}

#ifdef WITH_URCU
/* A thread has to be registered before it reads. */
static void registered(void (*run)(uint32_t), uint32_t number)
{
    urcu_memb_register_thread();
    run(number);
    urcu_memb_unregister_thread();
}
static void run_rounds(uint32_t number) { registered(go_round, number); }
static void run_on(uint32_t number) { registered(go_on, number); }
#else
static void run_rounds(uint32_t number) { go_round(number); }
static void run_on(uint32_t number) { go_on(number); }
#endif

static void change_all(void)
{
    const struct timespec pause = {0, PAUSE};
    for (long i = 0; i < changes; i++) {
        nanosleep(&pause, NULL);
        double began = now();
        form->change(i % 2 == 0 ? 16 : 32);
        taken[i] = now() - began;
    }
    atomic_store(&is_over, true);
}

static int by_size(const void *one, const void *other)
{
    double a = *(const double *)one, b = *(const double *)other;
    return (a > b) - (a < b);
}

static void time_changes(void)
{
    uint64_t all = 0;
    atomic_store(&is_over, false);
    double took = at_once(run_on, change_all);
    for (uint32_t i = 0; i < threads; i++)
        all += atomic_load(&done[i].count);
    qsort(taken, (size_t)changes, sizeof *taken, by_size);
    printf("change,%s,%u,%.2f,%.2f,%.2f\n", form->name, threads, taken[changes / 2] / 1e3,
           taken[changes - 1 - changes / 100] / 1e3, took * threads / (double)all);
}

static void make(void)
{
    const freeze_queue_limits limits = {.hardware = 64, .max = 32, .chunk = 128, .physical = 8};
    need(freeze_queue_new(&freezer, &limits, threads, threads) == FREEZE_QUEUE_OK, "no queue");
    need(freeze_queue_new(&of_pool, &limits, threads, FREEZE_QUEUE_MOST_TAGS) == FREEZE_QUEUE_OK, "no queue");
    need(freeze_queue_waits_init(&waits, &freezer) == 0, "no waits");
    need(freeze_queue_waits_init(&waits_of_pool, &of_pool) == FREEZE_QUEUE_OK, "no waits");
    need(freeze_queue_pool_fill(&pool, &waits_of_pool, FREEZE_QUEUE_MOST_TAGS) == FREEZE_QUEUE_OK, "no pool");
    for (uint32_t i = 0; i < threads; i++)
        need(freeze_queue_next_tag(&freezer, &tags[i].tag) == FREEZE_QUEUE_OK, "no tag");
    need(syscall(SYS_membarrier, MEMBARRIER_CMD_REGISTER_PRIVATE_EXPEDITED, 0, 0) == 0, "no membarrier");
    need((taken = malloc((size_t)changes * sizeof *taken)) != NULL, "no memory");
#ifdef WITH_URCU
    change_by_urcu(32);
#endif
}

int main(int count, char **given)
{
    need(count == 4, "usage: speed THREADS ROUNDS CHANGES");
    threads = (uint32_t)number_of(given[1], MOST_THREADS);
    rounds = number_of(given[2], 1000000000);
    changes = number_of(given[3], MOST_CHANGES);
    make();
    for (form = forms; form < forms + sizeof forms / sizeof *forms; form++) {
        printf("queue,%s,%u,%.2f\n", form->name, threads, at_once(run_rounds, NULL) / (double)rounds);
        if (form->change)
            time_changes();
    }
    free(taken);
    return 0;
}
