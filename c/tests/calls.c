/* Asks the library a row of calls from standard input, and writes each answer: docs/FORMATS.md has the format, and tests/rows/calls
 * compares the answers. What this library can't tell is answered '?'. */
#include "percpu_gate.h"

#include "row.h"
#include <stdlib.h>

static percpu_gate_control control;
static percpu_gate_pass passes[PERCPU_GATE_MOST_PASSES];
static unsigned long word_count;

static const char *text_of(uint32_t answer, const char *if_ok, const char *if_last)
{
    static const char *const refusals[] = {"already dead", "not dead", "not zero", "mid switch", "worn out"};
    if (answer == PERCPU_GATE_OK)
        return if_ok;
    if (answer == PERCPU_GATE_LAST)
        return if_last;
    if (answer == PERCPU_GATE_NOT_GIVEN)
        return "refused";
    if (answer == PERCPU_GATE_NOT_GIVEN_LAST)
        return "refused last";
    if (answer == PERCPU_GATE_WAS_AT_ZERO)
        return "at zero";
    if (answer >= PERCPU_GATE_ERR_ALREADY_DEAD && answer <= PERCPU_GATE_ERR_WORN_OUT)
        return refusals[answer - PERCPU_GATE_ERR_ALREADY_DEAD];
    return percpu_gate_is_misuse(answer) ? "passed over" : "?";
}

static void tell(uint32_t answer, const char *if_ok) { puts(text_of(answer, if_ok, "last")); }

static void tell_number(uint32_t answer, uint64_t number)
{
    if (answer == PERCPU_GATE_OK)
        printf("%" PRIu64 "\n", number);
    else
        tell(answer, "");
}

static void tell_flag(bool flag) { puts(flag ? "yes" : "no"); }

/* What a pass is asked, with the numbers behind it. */
static void ask_pass(percpu_gate_pass *pass, const char *call, uint32_t first, uint32_t second)
{
    uint64_t number = 0;
    if (!pass->is_open) {
        puts("passed over");
    } else if (!strcmp(call, "try")) {
        tell(percpu_gate_try_get(pass, first), "given");
    } else if (!strcmp(call, "live")) {
        tell(percpu_gate_try_get_live(pass, first), "given");
    } else if (!strcmp(call, "get")) {
        tell(percpu_gate_get(pass, first, second), "ok");
    } else if (!strcmp(call, "put")) {
        tell(percpu_gate_put(pass, first, second), "not last");
    } else if (!strcmp(call, "word")) {
        uint32_t answer = first < word_count ? percpu_gate_word(pass, first, &number) : (uint32_t)PERCPU_GATE_ERR_BAD_WORD;
        tell_number(answer, number);
    } else if (!strcmp(call, "front")) {
        uint32_t answer = percpu_gate_front(pass, &number);
        tell_number(answer, number);
    } else if (!strcmp(call, "dying")) {
        tell_flag(percpu_gate_is_dying(pass));
    } else if (!strcmp(call, "zero")) {
        tell_flag(percpu_gate_is_zero(pass));
    } else if (!strcmp(call, "retire")) {
        tell(percpu_gate_retire(&control, pass), "ok");
    } else if (!strcmp(call, "lose")) {
        percpu_gate_free_pass(pass);
        puts("ok");
    } else {
        puts("?");
    }
}

/* A kill by its steps, told when it is confirmed. */
static void kill_and_confirm(void)
{
    uint32_t slots = 0, answer = percpu_gate_mark_dead(&control, &slots);
    uint64_t front = 0;
    if (answer != PERCPU_GATE_OK) {
        tell(answer, "");
        return;
    }
    for (uint32_t slot = 0; slot < slots; slot++)
        answer |= percpu_gate_close_next(&control);
    if (slots > 0)
        answer |= percpu_gate_collect(&control);
    answer |= percpu_gate_confirm(&control, &front);
    if (answer != PERCPU_GATE_OK) {
        puts("a step was refused");
        return;
    }
    answer = percpu_gate_drop_base(&control);
    printf("%s confirmed %" PRIu64 "\n", text_of(answer, "not last", "last"), front);
}

static void ask_phase(void)
{
    static const char *const phases[] = {"live slots", "live atomic", "?", "collected", "confirmed", "dead"};
    uint32_t phase = percpu_gate_phase(&control);
    puts(phase <= PERCPU_GATE_PHASE_DEAD ? phases[phase] : "passed over");
}

static void ask_exit(void)
{
    percpu_gate_final last;
    uint32_t answer = percpu_gate_exit(&control, &last);
    if (answer != PERCPU_GATE_OK) {
        tell(answer, "");
        return;
    }
    printf("ended %s kills %" PRIu64 " releases %" PRIu64 " words", last.dead ? "dead" : "live", last.kills, last.releases);
    for (unsigned long k = 0; k < word_count; k++)
        printf(" %" PRIu64, last.words[k]);
    puts("");
}

/* A step of a kill, or all of them. Whether it is one. */
static bool ask_kill(const char *call)
{
    uint64_t front = 0;
    uint32_t slots = 0;
    if (!strcmp(call, "kill")) {
        tell(percpu_gate_kill(&control), "not last");
    } else if (!strcmp(call, "kill_and_confirm")) {
        kill_and_confirm();
    } else if (!strcmp(call, "mark_dead")) {
        uint32_t answer = percpu_gate_mark_dead(&control, &slots);
        tell_number(answer, slots);
    } else if (!strcmp(call, "close_next")) {
        tell(percpu_gate_close_next(&control), "?");
    } else if (!strcmp(call, "collect")) {
        tell(percpu_gate_collect(&control), "ok");
    } else if (!strcmp(call, "confirm")) {
        uint32_t answer = percpu_gate_confirm(&control, &front);
        tell_number(answer, front);
    } else if (!strcmp(call, "drop_base")) {
        tell(percpu_gate_drop_base(&control), "not last");
    } else {
        return false;
    }
    return true;
}

/* What the control is asked, with the numbers behind it. */
static void ask_control(const char *call, uint32_t first, uint64_t second)
{
    uint64_t number = 0, words[PERCPU_GATE_WORD_COUNT] = {0};
    if (ask_kill(call)) {
        return;
    } else if (!strcmp(call, "reinit")) {
        tell(percpu_gate_reinit(&control), "ok");
    } else if (!strcmp(call, "resurrect")) {
        tell(percpu_gate_resurrect(&control), "held");
    } else if (!strcmp(call, "store")) {
        tell(first < word_count ? percpu_gate_store_word(&control, first, second) : (uint32_t)PERCPU_GATE_ERR_BAD_WORD, "ok");
    } else if (!strcmp(call, "word")) {
        uint32_t answer = first < word_count ? percpu_gate_all_words(&control, words) : (uint32_t)PERCPU_GATE_ERR_BAD_WORD;
        tell_number(answer, first < word_count ? words[first] : 0);
    } else if (!strcmp(call, "atomic")) {
        tell(percpu_gate_switch_to_atomic(&control), "ok");
    } else if (!strcmp(call, "slots")) {
        tell(percpu_gate_switch_to_slots(&control), "ok");
    } else if (!strcmp(call, "zero")) {
        tell_flag(percpu_gate_control_is_zero(&control));
    } else if (!strcmp(call, "phase")) {
        ask_phase();
    } else if (!strcmp(call, "kills")) {
        uint32_t answer = percpu_gate_kill_count(&control, &number);
        tell_number(answer, number);
    } else if (!strcmp(call, "releases")) {
        uint32_t answer = percpu_gate_release_count(&control, &number);
        tell_number(answer, number);
    } else if (!strcmp(call, "exit")) {
        ask_exit();
    } else {
        puts("?");
    }
}

/* Makes the gate of a line 'world SLOTS PASSES START 0 [WORD ..]', and gives out its passes. */
static bool make_gate(char *line)
{
    uint64_t words[PERCPU_GATE_WORD_COUNT] = {0};
    char start[16];
    uint32_t slots, count, kind;
    int read = 0;
    if (sscanf(line, "world %" SCNu32 " %" SCNu32 " %15s 0%n", &slots, &count, start, &read) != 3 || !read)
        return false;
    for (char *rest = line + read; word_count < PERCPU_GATE_WORD_COUNT; word_count++) {
        char *end;
        words[word_count] = strtoull(rest, &end, 10);
        if (end == rest)
            break;
        rest = end;
    }
    kind = !strcmp(start, "slots") ? PERCPU_GATE_START_SLOTS : !strcmp(start, "atomic") ? PERCPU_GATE_START_ATOMIC : PERCPU_GATE_START_DEAD;
    if (percpu_gate_new(&control, slots, count, kind, words) != PERCPU_GATE_OK)
        return false;
    for (uint32_t at = 0; at < count; at++)
        if (percpu_gate_next_pass(&control, &passes[at]) != PERCPU_GATE_OK)
            return false;
    return true;
}

static void ask(const char *actor, const char *call, const uint64_t *numbers)
{
    unsigned long pass = strtoul(actor, NULL, 10);
    if (!strcmp(actor, "c"))
        ask_control(call, (uint32_t)numbers[0], numbers[1]);
    else if (pass < PERCPU_GATE_MOST_PASSES)
        ask_pass(&passes[pass], call, (uint32_t)numbers[0], (uint32_t)numbers[1]);
    else
        puts("passed over");
}

int main(void)
{
    int status = answers_row(make_gate, ask);
    for (size_t at = 0; at < PERCPU_GATE_MOST_PASSES; at++)
        percpu_gate_free_pass(&passes[at]);
    percpu_gate_free_control(&control);
    return status;
}
