/* Answers the gate's lines with the kernel's percpu_ref. The answer is `-` if the kernel's rules don't allow a call, or
 * if the call exceeds a limit of the other library. This driver keeps the passes and the references that they hold. */
#include "alone.h"
#include "lines.h"
#include <linux/gfp.h>
#include <linux/kernel.h>
#include <linux/percpu-refcount.h>

enum { MOST = 64, MOST_HELD = 65535 };

static struct percpu_ref ref;
static struct alone_sleeper sleeper;
static bool is_there;
static unsigned passes;
static unsigned held[MOST];
static uint64_t releases, kills;
static char confirmed[80];

struct alone_sleeper *alone_sleeper(unsigned at) { return at ? NULL : &sleeper; }

void alone_block(void)
{
    puts("hangs");
    fflush(stdout);
    exit(3);
}

static void on_release(struct percpu_ref *of)
{
    (void)of;
    releases++;
}

static void begin(void)
{
    unsigned flags = PERCPU_REF_ALLOW_REINIT;
    shim_cpus = number(1);
    passes = number(2);
    is_there = shim_cpus >= 1 && shim_cpus <= MOST && passes >= 1 && passes <= MOST && is_start(3);
    flags |= has_word(3, "atomic") ? PERCPU_REF_INIT_ATOMIC : has_word(3, "dead") ? PERCPU_REF_INIT_DEAD : 0;
    memset(held, 0, sizeof held);
    releases = kills = 0;
    alone_cpu = 0;
    if (is_there && percpu_ref_init(&ref, on_release, flags, GFP_KERNEL))
        exit(4);
    printf("%s", is_there ? "gate" : "-");
}

/* The pass of a line, whose slot runs it; false if one of them isn't there. */
static bool chosen(unsigned *pass, bool has_slot)
{
    *pass = number(1);
    alone_cpu = has_slot ? number(2) : 0;
    return *pass < passes && (!has_slot || number(2) < shim_cpus);
}

static const char *tried(unsigned pass, bool (*call)(struct percpu_ref *))
{
    bool is_given = call(&ref);
    held[pass] += is_given;
    return is_given ? "given" : "refused";
}

/* Whether a line is a pass's, and its answer. */
static bool of_pass(unsigned *pass)
{
    if (is("dying") || is("zero")) {
        if (!chosen(pass, false))
            return printf("-"), true;
        return printf("%s", yes_no(is("zero") ? percpu_ref_is_zero(&ref) : percpu_ref_is_dying(&ref))), true;
    }
    if (!is("try") && !is("live") && !is("get") && !is("put"))
        return false;
    bool is_try = is("try") || is("live");
    uint64_t n = is_try ? 1 : number(3);
    if (!chosen(pass, true) || n < 1 || n > MOST_HELD || (!is_try && !held[*pass]) || (is("put") && held[*pass] < n) ||
        (!is("put") && held[*pass] + n > MOST_HELD))
        return printf("-"), true;
    if (is_try) {
        printf("%s", tried(*pass, is("try") ? percpu_ref_tryget : percpu_ref_tryget_live));
    } else if (is("get")) {
        percpu_ref_get_many(&ref, n);
        held[*pass] += n;
        printf("ok");
    } else {
        held[*pass] -= n;
        percpu_ref_put_many(&ref, n);
        printf("put");
    }
    return true;
}

static void on_confirm(struct percpu_ref *of)
{
    unsigned pass = number(1);
    snprintf(confirmed, sizeof confirmed, "dying %s, live %s", yes_no(percpu_ref_is_dying(of)),
             tried(pass, percpu_ref_tryget_live));
    snprintf(confirmed + strlen(confirmed), sizeof confirmed - strlen(confirmed), ", try %s", tried(pass, percpu_ref_tryget));
}

static void killed(void)
{
    unsigned pass = 0;
    if (percpu_ref_is_dying(&ref)) {
        printf("already dead");
    } else if (is("confirm")) {
        if (!chosen(&pass, true) || held[pass] + 2 > MOST_HELD) {
            printf("-");
            return;
        }
        kills++;
        strcpy(confirmed, "never");
        percpu_ref_kill_and_confirm(&ref, on_confirm);
        alone_grace();
        printf("confirmed: %s; killed", confirmed);
    } else {
        kills++;
        percpu_ref_kill(&ref);
        if (!has_word(1, "begin"))
            alone_grace();
        printf(alone_is_pending() ? "begun" : "killed");
    }
}

static void revived(void)
{
    bool was_zero = percpu_ref_is_zero(&ref);
    if (!percpu_ref_is_dying(&ref)) {
        printf("not dead");
    } else if (is("reinit") && !was_zero) {
        printf("not zero");
    } else {
        (is("reinit") ? percpu_ref_reinit : percpu_ref_resurrect)(&ref);
        printf(is("reinit") ? "ok" : was_zero ? "at zero" : "held");
    }
}

static void of_control(void)
{
    bool is_killing = alone_is_pending() && percpu_ref_is_dying(&ref);
    alone_cpu = 0;
    if (is("grace")) {
        alone_grace();
        printf(is_killing ? "killed" : "ok");
    } else if (is("mode")) {
        printf(percpu_ref_is_dying(&ref)                    ? "dead"
               : ref.percpu_count_ptr & __PERCPU_REF_ATOMIC ? "atomic"
                                                            : "slots");
    } else if (is_killing && !is("kill") && !is("confirm")) {
        printf("-"); /* the kernel waits for the grace period first */
    } else if (is("kill") || is("confirm")) {
        killed();
    } else if (is("reinit") || is("resurrect")) {
        revived();
    } else if (is("atomic") && has_word(1, "begin")) {
        percpu_ref_switch_to_atomic(&ref, NULL);
        printf("ok");
    } else if (is("atomic") || is("slots")) {
        (is("slots") ? percpu_ref_switch_to_percpu : percpu_ref_switch_to_atomic_sync)(&ref);
        printf("ok");
    } else {
        printf("-");
    }
}

/* Puts all that is held, and ends the gate. */
static void ended(void)
{
    alone_cpu = 0;
    alone_grace();
    for (unsigned it = 0; it < passes; it++)
        if (held[it])
            percpu_ref_put_many(&ref, held[it]);
    printf("%s, zero %s, kills %" PRIu64 ", releases %" PRIu64, percpu_ref_is_dying(&ref) ? "dead" : "live",
           yes_no(percpu_ref_is_zero(&ref)), kills, releases);
    percpu_ref_exit(&ref);
    is_there = false;
}

int main(void)
{
    setvbuf(stdout, NULL, _IOLBF, 0);
    alone_now = &sleeper;
    while (next_line()) {
        uint64_t before = releases;
        unsigned pass;
        if (is("gate")) {
            before = 0;
            begin();
        } else if (!is_there) {
            printf("-");
        } else if (is("end")) {
            ended();
            before = releases;
        } else if (!of_pass(&pass)) {
            of_control();
        }
        alone_tells(", ", ", and ", releases - before);
        puts("");
    }
    return 0;
}
