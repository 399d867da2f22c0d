/* What the header tells the thread sanitizer of each call: telling.h says how it is tried. */
#define PERCPU_GATE_TELLS_TSAN 1
#include "percpu_gate.h"

#include "telling.h"

/* The calls by the names that a program uses. */
static uint32_t (*const try_get)(percpu_gate_pass *, uint32_t) = percpu_gate_try_get;
static uint32_t (*const try_get_live)(percpu_gate_pass *, uint32_t) = percpu_gate_try_get_live;
static uint32_t (*const put)(percpu_gate_pass *, uint32_t, uint32_t) = percpu_gate_put;
static bool (*const is_zero)(percpu_gate_pass *) = percpu_gate_is_zero;
static uint32_t (*const kill)(percpu_gate_control *) = percpu_gate_kill;
static uint32_t (*const drop_base)(percpu_gate_control *) = percpu_gate_drop_base;
static bool (*const control_is_zero)(percpu_gate_control *) = percpu_gate_control_is_zero;
static uint32_t (*const reinit)(percpu_gate_control *) = percpu_gate_reinit;
static uint32_t (*const resurrect)(percpu_gate_control *) = percpu_gate_resurrect;
#undef percpu_gate_try_get
#undef percpu_gate_try_get_live
#undef percpu_gate_put
#undef percpu_gate_is_zero
#undef percpu_gate_kill
#undef percpu_gate_drop_base
#undef percpu_gate_control_is_zero
#undef percpu_gate_reinit
#undef percpu_gate_resurrect

uint64_t percpu_gate_pass_number(percpu_gate_pass *pass) { return pass ? number : 0; }
uint64_t percpu_gate_control_number(percpu_gate_control *control) { return control ? number : 0; }
percpu_gate_answer percpu_gate_try_get(percpu_gate_pass *pass, uint32_t slot) { return called(pass && slot == 2); }
percpu_gate_answer percpu_gate_try_get_live(percpu_gate_pass *pass, uint32_t slot) { return called(pass && slot == 2); }
percpu_gate_answer percpu_gate_put(percpu_gate_pass *pass, uint32_t slot, uint32_t n) { return called(pass && slot == 2 && n == 3); }
bool percpu_gate_is_zero(percpu_gate_pass *pass) { return called(pass) == 1; }
percpu_gate_answer percpu_gate_kill(percpu_gate_control *control) { return called(control); }
percpu_gate_answer percpu_gate_drop_base(percpu_gate_control *control) { return called(control); }
bool percpu_gate_control_is_zero(percpu_gate_control *control) { return called(control) == 1; }
percpu_gate_answer percpu_gate_reinit(percpu_gate_control *control) { return called(control); }
percpu_gate_answer percpu_gate_resurrect(percpu_gate_control *control) { return called(control); }

static percpu_gate_pass pass;
static percpu_gate_control control;

static uint32_t tries(void) { return try_get(&pass, 2); }
static uint32_t tries_live(void) { return try_get_live(&pass, 2); }
static uint32_t puts_three(void) { return put(&pass, 2, 3); }
static uint32_t sees_zero(void) { return is_zero(&pass); }
static uint32_t kills(void) { return kill(&control); }
static uint32_t drops_base(void) { return drop_base(&control); }
static uint32_t control_sees_zero(void) { return control_is_zero(&control); }
static uint32_t reinits(void) { return reinit(&control); }
static uint32_t resurrects(void) { return resurrect(&control); }

static const struct call calls[] = {
    {"try_get", tries, false, "c", "ca", {PERCPU_GATE_OK, PERCPU_GATE_NOT_GIVEN_LAST}},
    {"try_get_live", tries_live, false, "c", "ca", {PERCPU_GATE_OK, PERCPU_GATE_NOT_GIVEN_LAST}},
    {"put", puts_three, false, "rc", "rca", {PERCPU_GATE_LAST, PERCPU_GATE_LAST}},
    {"is_zero", sees_zero, true, "c", "ca", {true, true}},
    {"kill", kills, false, "rc", "rca", {PERCPU_GATE_LAST, PERCPU_GATE_LAST}},
    {"drop_base", drops_base, false, "rc", "rca", {PERCPU_GATE_LAST, PERCPU_GATE_LAST}},
    {"control_is_zero", control_sees_zero, true, "c", "ca", {true, true}},
    {"reinit", reinits, false, "rc", "rca", {PERCPU_GATE_OK, PERCPU_GATE_OK}},
    {"resurrect", resurrects, false, "rc", "rca", {PERCPU_GATE_WAS_AT_ZERO, PERCPU_GATE_WAS_AT_ZERO}},
};

int main(void) { return told_as_promised(calls, sizeof calls / sizeof *calls, percpu_gate_orders); }
