/* Answers the queue's lines with the kernel's freeze, entering and limits. The answer is `-` if the kernel's rules don't
 * allow a call, or if the call exceeds a limit of the other library. Each call that may sleep runs on its own stack. */
#include "alone.h"
#include "lines.h"
#include "queue_taken.h"
#include <ucontext.h>

enum { TAGS = 63, FREEZERS = 4, ACTORS = TAGS + FREEZERS, STACK = 1 << 16, MOST_DEPTH = 1000 };
enum state { IDLE, RUNS, WAITS, DONE };

static struct actor {
    struct alone_sleeper sleeper;
    ucontext_t at;
    char *stack;
    enum state state;
    unsigned slot;
    int answer;
} actors[ACTORS];

static struct request_queue q;
static ucontext_t driver;
static unsigned now, tags, inside;
static bool is_there, is_in[TAGS];
static uint64_t releases, kills, hardware;

static struct alone_sleeper of_driver;

struct alone_sleeper *alone_sleeper(unsigned at)
{
    return at < ACTORS ? &actors[at].sleeper : at == ACTORS ? &of_driver : NULL;
}

void alone_block(void)
{
    if (alone_now == &of_driver) {
        puts("hangs");
        fflush(stdout);
        exit(3);
    }
    actors[now].state = WAITS;
    swapcontext(&actors[now].at, &driver);
}

/* The call of an actor that may sleep: a tag enters, a freezer waits for the drain. */
static void run_call(void)
{
    struct actor *me = &actors[now];
    if (now < TAGS)
        me->answer = blk_queue_enter(&q, 0);
    else
        blk_mq_freeze_queue_wait(&q);
    me->state = DONE;
    swapcontext(&me->at, &driver);
}

/* Lets an actor run until it sleeps or is done. */
static void go_on(unsigned it)
{
    now = it;
    alone_cpu = actors[it].slot;
    alone_now = &actors[it].sleeper;
    actors[it].state = RUNS;
    swapcontext(&driver, &actors[it].at);
}

static void begin_call(unsigned it, unsigned slot)
{
    struct actor *a = &actors[it];
    if (!a->stack)
        a->stack = malloc(STACK);
    getcontext(&a->at);
    a->at.uc_stack.ss_sp = a->stack;
    a->at.uc_stack.ss_size = STACK;
    a->at.uc_link = NULL;
    a->slot = slot;
    a->answer = 0;
    makecontext(&a->at, run_call, 0);
    go_on(it);
}

/* Prints the actors that ended their call with an answer, and makes them idle. */
static void print_done(const char *what, unsigned from, unsigned to, int answer)
{
    for (unsigned it = from; it < to; it++) {
        if (actors[it].state != DONE || actors[it].answer != answer)
            continue;
        printf("%s %u", what, it - from);
        what = "";
        actors[it].state = IDLE;
        inside += from == 0 && !answer;
        if (from == 0 && !answer)
            is_in[it] = true;
    }
}

/* Ends the grace period, and lets those that were woken go on. */
static void settle(void)
{
    bool is_moved = true;
    alone_grace();
    while (is_moved) {
        is_moved = false;
        for (unsigned it = 0; it < ACTORS; it++)
            if (actors[it].state == WAITS && actors[it].sleeper.woken) {
                go_on(it);
                is_moved = true;
            }
        alone_grace();
    }
    print_done("; entered", 0, TAGS, 0);
    print_done("; gone", 0, TAGS, -ENODEV);
    print_done("; drained", TAGS, ACTORS, 0);
}

/* The kernel's own release wakes the freezers. That it ran is counted. */
static void on_release(struct percpu_ref *ref)
{
    releases++;
    queue_release(ref);
}

static struct queue_limits limits_at(unsigned at)
{
    return (struct queue_limits){.max_sectors = number(at), .chunk_sectors = number(at + 1),
        .physical_block_size = number(at + 2) * SECTOR_SIZE, .logical_block_size = SECTOR_SIZE};
}

/* Whether both sides take these limits. */
static bool are_limits(uint64_t hardware, unsigned at)
{
    uint64_t most = number(at), chunk = number(at + 1), block = number(at + 2);
    return hardware >= 1 && hardware <= 65535 && most >= 1 && most <= hardware && chunk <= 65535 && block <= 32768 &&
           block && !(block & (block - 1));
}

/* As blk_alloc_queue makes it, and blk_register_queue switches it. */
static void begin(void)
{
    is_there = number(1) >= 1 && number(1) <= 64 && number(2) >= 1 && number(2) <= TAGS && are_limits(number(3), 4);
    if (!is_there) {
        printf("-");
        return;
    }
    hardware = number(3);
    shim_cpus = number(1);
    tags = number(2);
    memset(&q, 0, sizeof q);
    memset(is_in, 0, sizeof is_in);
    for (unsigned it = 0; it < ACTORS; it++) {
        actors[it].state = IDLE;
        actors[it].sleeper = (struct alone_sleeper){0};
    }
    q.limits = limits_at(4);
    releases = kills = inside = 0;
    if (percpu_ref_init(&q.q_usage_counter, on_release, PERCPU_REF_INIT_ATOMIC, GFP_KERNEL))
        exit(4);
    percpu_ref_switch_to_percpu(&q.q_usage_counter);
    printf("queue");
}

/* Whether a line is a tag's, and its answer. */
static bool of_tag(void)
{
    uint64_t tag = number(1), slot = number(2);
    bool is_entry = is("enter") || is("nowait") || is("look"), is_inner = is("leave") || is("limits");
    if (!is_entry && !is_inner)
        return false;
    if (tag >= tags || slot >= shim_cpus || actors[tag].state != IDLE || is_in[tag] == is_entry)
        return printf("-"), true;
    alone_cpu = slot;
    if (is("enter")) {
        begin_call(tag, slot);
        printf(actors[tag].state == DONE ? "enters" : "waits");
    } else if (is("nowait") || is("look")) {
        int answer = is("nowait") ? blk_queue_enter(&q, BLK_MQ_REQ_NOWAIT) : percpu_ref_tryget(&q.q_usage_counter) ? 0 : -EAGAIN;
        is_in[tag] = !answer;
        inside += !answer;
        printf(!answer ? "entered" : answer == -EAGAIN ? "again" : "no device");
    } else if (is("leave")) {
        is_in[tag] = false;
        inside--;
        blk_queue_exit(&q);
        printf("left");
    } else {
        printf("%u %u %u", q.limits.max_sectors, q.limits.chunk_sectors, q.limits.physical_block_size / SECTOR_SIZE);
    }
    return true;
}

/* Drains the queue for good: all tags have left. */
static void destroy(void)
{
    if (inside) {
        printf("-");
        return;
    }
    kills += !q.mq_freeze_depth;
    q.is_dying = true;
    queue_start_drain(&q);
    settle();
    printf("; zero %s, kills %" PRIu64 ", releases %" PRIu64, yes_no(percpu_ref_is_zero(&q.q_usage_counter)), kills, releases);
    percpu_ref_exit(&q.q_usage_counter);
    is_there = false;
}

static void wait_drained(void)
{
    uint64_t freezer = number(1);
    if (freezer >= FREEZERS || actors[TAGS + freezer].state != IDLE) {
        printf("-");
        return;
    }
    begin_call(TAGS + freezer, 0);
    printf(actors[TAGS + freezer].state == DONE ? "is drained" : "waits");
}

static void of_freezer(void)
{
    bool is_zero = percpu_ref_is_zero(&q.q_usage_counter);
    alone_cpu = 0;
    if (is("freeze") && q.mq_freeze_depth < MOST_DEPTH) {
        kills += !q.mq_freeze_depth;
        blk_freeze_queue_start(&q);
        alone_grace();
        printf("depth %d", q.mq_freeze_depth);
    } else if (is("thaw") && q.mq_freeze_depth > 0) {
        queue_thaw(&q);
        printf("depth %d", q.mq_freeze_depth);
    } else if (is("thaw")) {
        printf("not frozen");
    } else if (is("wait")) {
        wait_drained();
    } else if (is("drained")) {
        printf("%s", yes_no(is_zero));
    } else if (is("depth")) {
        printf("%d", q.mq_freeze_depth);
    } else if (is("set")) {
        if (is_zero && are_limits(hardware, 1))
            q.limits = limits_at(1);
        printf(!are_limits(hardware, 1) ? "-" : is_zero ? "ok" : "not drained");
    } else if (is("mode")) {
        (has_word(1, "slots") ? percpu_ref_switch_to_percpu : percpu_ref_switch_to_atomic_sync)(&q.q_usage_counter);
        printf("ok");
    } else if (is("destroy")) {
        destroy();
    } else {
        printf("-");
    }
}

/* The first piece of a range, as the kernel cuts it; and how far the limits reach, by the same function for blocks of one
 * sector. */
static void split(void)
{
    struct queue_limits limits = limits_at(4);
    uint64_t start = number(1), count = number(2);
    if (!are_limits(number(3), 4) || start >= 1ull << 33 || count < 1 || count > UINT32_MAX) {
        printf("-");
        return;
    }
    unsigned aligned = queue_io_size(start, limits);
    limits.physical_block_size = SECTOR_SIZE;
    printf("%" PRIu64 " reach %u", count < aligned ? count : aligned, queue_io_size(start, limits));
}

int main(void)
{
    setvbuf(stdout, NULL, _IOLBF, 0);
    while (next_line()) {
        uint64_t before = releases;
        alone_now = &of_driver;
        if (is("queue")) {
            before = 0;
            begin();
        } else if (is("split")) {
            split();
        } else if (!is_there) {
            printf("-");
        } else if (!of_tag()) {
            of_freezer();
        }
        if (is_there)
            settle();
        alone_tells("; ", "; ", releases - before);
        puts("");
    }
    return 0;
}
