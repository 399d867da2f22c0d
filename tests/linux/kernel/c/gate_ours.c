/* Answers the gate's lines with the library percpu_gate, which only this file uses. If the kernel has no word for a
 * refusal, the answer is its text. */
#include "lines.h"
#include <percpu_gate.h>

enum { MOST = 64 };

static percpu_gate_control control;
static percpu_gate_pass handles[MOST];
static unsigned slots, passes, held[MOST];

static void refused(uint32_t answer) { printf("refused: %s", percpu_gate_text(answer)); }

static void released(bool is_so)
{
    if (is_so)
        printf(", release");
}

static bool begin(void)
{
    uint64_t words[8] = {0};
    uint32_t start = has_word(3, "atomic") ? PERCPU_GATE_START_ATOMIC : has_word(3, "dead") ? PERCPU_GATE_START_DEAD : PERCPU_GATE_START_SLOTS;
    bool is_small = is_start(3) && number(1) <= MOST && number(2) <= MOST;
    uint32_t answer = is_small ? percpu_gate_new(&control, number(1), number(2), start, words) : PERCPU_GATE_ERR_BAD_SIZE;
    slots = number(1);
    passes = answer ? 0 : number(2);
    memset(held, 0, sizeof held);
    for (unsigned it = 0; it < passes; it++)
        if (percpu_gate_next_pass(&control, &handles[it]))
            return false;
    if (answer)
        refused(answer);
    else
        printf("gate");
    return true;
}

static uint32_t tried(unsigned pass, uint32_t slot, bool is_live)
{
    uint32_t answer = (is_live ? percpu_gate_try_get_live : percpu_gate_try_get)(&handles[pass], slot);
    held[pass] += answer == PERCPU_GATE_OK;
    return answer;
}

static const char *given(uint32_t answer)
{
    return answer == PERCPU_GATE_OK ? "given" : answer == PERCPU_GATE_NOT_GIVEN ? "refused" : percpu_gate_text(answer);
}

/* Whether a line is a pass's, and its answer. */
static bool of_pass(void)
{
    uint64_t pass = number(1), slot = number(2);
    uint32_t n = number(3) > UINT32_MAX ? UINT32_MAX : number(3), answer;
    if (!is("try") && !is("live") && !is("get") && !is("put") && !is("dying") && !is("zero"))
        return false;
    if (pass >= passes || slot > UINT32_MAX)
        return printf("refused: no such pass or slot"), true;
    if (is("dying") || is("zero"))
        return printf("%s", yes_no((is("zero") ? percpu_gate_is_zero : percpu_gate_is_dying)(&handles[pass]))), true;
    if (is("try") || is("live"))
        answer = tried(pass, slot, is("live"));
    else
        answer = (is("get") ? percpu_gate_get : percpu_gate_put)(&handles[pass], slot, n);
    if (answer >= 16) {
        refused(answer);
    } else if (is("try") || is("live")) {
        printf("%s", given(answer));
    } else {
        held[pass] += is("get") ? n : -n;
        printf(is("get") ? "ok" : "put");
        released(answer == PERCPU_GATE_LAST);
    }
    return true;
}

/* Whether the call is refused, as the kernel's rules name it or by its text. */
static bool is_refusal(uint32_t answer)
{
    if (answer == PERCPU_GATE_ERR_ALREADY_DEAD || answer == PERCPU_GATE_ERR_NOT_DEAD || answer == PERCPU_GATE_ERR_NOT_ZERO)
        printf(answer == PERCPU_GATE_ERR_ALREADY_DEAD ? "already dead" : answer == PERCPU_GATE_ERR_NOT_DEAD ? "not dead" : "not zero");
    else if (answer >= 16)
        refused(answer);
    return answer >= 16;
}

/* The parts of a kill up to its confirmation. */
static void up_to_confirmed(void)
{
    uint64_t front;
    if (percpu_gate_phase(&control) == PERCPU_GATE_PHASE_CLOSING)
        percpu_gate_collect(&control);
    percpu_gate_confirm(&control, &front);
}

static void killed(void)
{
    uint32_t to_close, answer;
    uint64_t pass = number(1);
    uint32_t phase = percpu_gate_phase(&control);
    bool is_mid = phase >= PERCPU_GATE_PHASE_CLOSING && phase <= PERCPU_GATE_PHASE_CONFIRMED;
    if (is_mid || phase == PERCPU_GATE_PHASE_DEAD) {
        printf("already dead");
        return;
    }
    if (is("confirm") && (pass >= passes || number(2) >= slots || held[pass] + 2 > PERCPU_GATE_MOST_HELD)) {
        printf("refused: no such pass or slot, or no room");
        return;
    }
    if (is("kill") && !has_word(1, "begin")) {
        if (!is_refusal(answer = percpu_gate_kill(&control))) {
            printf("killed");
            released(answer == PERCPU_GATE_LAST);
        }
        return;
    }
    if (is_refusal(percpu_gate_mark_dead(&control, &to_close)))
        return;
    for (uint32_t it = 0; it < to_close; it++)
        percpu_gate_close_next(&control);
    if (is("kill") && to_close) {
        printf("begun");
        return;
    }
    up_to_confirmed();
    if (is("confirm")) {
        printf("confirmed: dying %s", yes_no(percpu_gate_is_dying(&handles[pass])));
        printf(", live %s", given(tried(pass, number(2), true)));
        printf(", try %s; ", given(tried(pass, number(2), false)));
    }
    printf("killed");
    released(percpu_gate_drop_base(&control) == PERCPU_GATE_LAST);
}

static void grace(void)
{
    uint32_t phase = percpu_gate_phase(&control);
    if (phase != PERCPU_GATE_PHASE_CLOSING && phase != PERCPU_GATE_PHASE_COLLECTED) {
        printf("ok");
        return;
    }
    up_to_confirmed();
    printf("killed");
    released(percpu_gate_drop_base(&control) == PERCPU_GATE_LAST);
}

static void of_control(void)
{
    uint32_t answer, phase = percpu_gate_phase(&control);
    if (is("kill") || is("confirm")) {
        killed();
    } else if (is("grace")) {
        grace();
    } else if (is("mode")) {
        printf(phase == PERCPU_GATE_PHASE_LIVE_ON_SLOTS ? "slots" : phase == PERCPU_GATE_PHASE_LIVE_ATOMIC ? "atomic" : "dead");
    } else if (is("reinit")) {
        if (!is_refusal(percpu_gate_reinit(&control)))
            printf("ok");
    } else if (is("resurrect")) {
        if (!is_refusal(answer = percpu_gate_resurrect(&control)))
            printf(answer == PERCPU_GATE_WAS_AT_ZERO ? "at zero" : "held");
    } else if (is("atomic") || is("slots")) {
        if (!is_refusal((is("slots") ? percpu_gate_switch_to_slots : percpu_gate_switch_to_atomic)(&control)))
            printf("ok");
    } else {
        printf("refused: no such line");
    }
}

/* Puts all that is held, and ends the gate. */
static bool ended(void)
{
    uint32_t phase = percpu_gate_phase(&control);
    percpu_gate_final last;
    if (phase == PERCPU_GATE_PHASE_CLOSING || phase == PERCPU_GATE_PHASE_COLLECTED) {
        up_to_confirmed();
        (void)!percpu_gate_drop_base(&control);
    }
    for (unsigned it = 0; it < passes; it++)
        if ((held[it] && percpu_gate_put(&handles[it], 0, held[it]) >= 16) || percpu_gate_retire(&control, &handles[it]))
            return false;
    bool is_zero = percpu_gate_control_is_zero(&control);
    if (percpu_gate_exit(&control, &last))
        return false;
    printf("%s, zero %s, kills %" PRIu64 ", releases %" PRIu64, last.dead ? "dead" : "live", yes_no(is_zero), last.kills,
           last.releases);
    passes = 0;
    return true;
}

int main(void)
{
    while (next_line()) {
        bool is_right = true;
        if (is("gate"))
            is_right = begin();
        else if (!passes)
            printf("refused: no gate");
        else if (is("end"))
            is_right = ended();
        else if (!of_pass())
            of_control();
        if (!is_right)
            printf("a gate that doesn't begin or end");
        puts("");
    }
    return 0;
}
