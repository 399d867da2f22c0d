/*
 * The gate, for C99, C11 and C++: references that many threads take and put, until the gate is killed.
 *
 * A gate guards an object that may go away while requests use it. Each request takes a reference with a pass (try_get_live)
 * and puts it (put). After a kill no request is let in, and the call that puts the last reference returns LAST: the thread
 * that gets it frees the object. Eight guarded words change only while no reference is held. No call waits, takes a lock or
 * retries. Most calls return a percpu_gate_answer. 16 and above: the call was refused and changed nothing, except exit with
 * ERR_NO_MEMORY, after which the gate is gone. Below 16 the call was done, except NOT_GIVEN and NOT_GIVEN_LAST: no reference is
 * given. The names in capitals below are a call's answers besides OK, without PERCPU_GATE_. See percpu_gate(3) for the order of
 * memory, the preconditions, and how to wait for the last put.
 */
#ifndef PERCPU_GATE_H
#define PERCPU_GATE_H

#include <assert.h>
#include <stdbool.h>
#include <stdint.h>

#define PERCPU_GATE_VERSION_MAJOR 1
#define PERCPU_GATE_VERSION_MINOR 0
#define PERCPU_GATE_VERSION_PATCH 0
#define PERCPU_GATE_VERSION "1.0.0-rc.1"

#if defined(__GNUC__)
#define PERCPU_GATE_MUST_USE __attribute__((warn_unused_result))
#else
#define PERCPU_GATE_MUST_USE
#endif

#ifdef __cplusplus
#define PERCPU_GATE_OF_32_BITS : uint32_t
#define PERCPU_GATE_ZEROED {}
extern "C" {
#else
#define PERCPU_GATE_OF_32_BITS
#define PERCPU_GATE_ZEROED
#endif

enum {
    PERCPU_GATE_MOST_SLOTS = 512,
    PERCPU_GATE_MOST_PASSES = 1024,
    PERCPU_GATE_MOST_HELD = 65535, /* references that one pass holds */
    PERCPU_GATE_WORD_COUNT = 8     /* guarded words */
};

/* Two words of a handle, for later versions. In C++ they make a handle non-copyable. */
typedef struct percpu_gate_reserve {
    void *words[2] PERCPU_GATE_ZEROED;
#ifdef __cplusplus
    percpu_gate_reserve() = default;
    percpu_gate_reserve(const percpu_gate_reserve &) = delete;
    percpu_gate_reserve &operator=(const percpu_gate_reserve &) = delete;
#endif
} percpu_gate_reserve;

/* A handle has an open flag, a pointer to the library's data, and reserved words. It is all zero while it is closed, and has to
 * be before its first call; in C++ its constructor sees to that. */
typedef struct percpu_gate_control {
    bool is_open PERCPU_GATE_ZEROED;
    void *at PERCPU_GATE_ZEROED;
    percpu_gate_reserve reserved;
} percpu_gate_control;
typedef struct percpu_gate_pass {
    bool is_open PERCPU_GATE_ZEROED;
    void *at PERCPU_GATE_ZEROED;
    percpu_gate_reserve reserved;
} percpu_gate_pass;

/* The last state of a gate that has ended: whether it was dead, its kills, how many calls returned LAST, and its words. */
typedef struct percpu_gate_final {
    bool dead;
    uint64_t kills;
    uint64_t releases;
    uint64_t words[PERCPU_GATE_WORD_COUNT];
} percpu_gate_final;

#if defined(__cplusplus) || __STDC_VERSION__ >= 201112L
static_assert(sizeof(percpu_gate_control) == 32, "a handle is four words");
static_assert(sizeof(percpu_gate_pass) == 32, "a handle is four words");
static_assert(sizeof(percpu_gate_final) == 88, "as the library has it");
#endif

/* How a gate starts: counting on slots, on the shared word alone, or dead and at zero. */
enum { PERCPU_GATE_START_SLOTS = 0, PERCPU_GATE_START_ATOMIC = 1, PERCPU_GATE_START_DEAD = 2 };

/* The phase of the control. Closing, collected and confirmed are phases of a kill that was begun by mark_dead. */
enum {
    PERCPU_GATE_PHASE_LIVE_ON_SLOTS = 0,
    PERCPU_GATE_PHASE_LIVE_ATOMIC = 1, /* live, counting on the shared word alone */
    PERCPU_GATE_PHASE_CLOSING = 2,     /* slots are closed one by one; collect is next after the last */
    PERCPU_GATE_PHASE_COLLECTED = 3,   /* confirm is next */
    PERCPU_GATE_PHASE_CONFIRMED = 4,   /* drop_base is next */
    PERCPU_GATE_PHASE_DEAD = 5
};

/* Answers. Below 16 the call was done, or no reference is given because the gate was killed. 16 and above: the call was refused,
 * and the name has ERR. Both libraries have the same numbers for what both refuse: 21, and 32 to 47. */
typedef enum percpu_gate_answer PERCPU_GATE_OF_32_BITS {
    PERCPU_GATE_OK = 0,             /* done; a reference is given; a put or a kill that isn't the last */
    PERCPU_GATE_LAST = 1,           /* the release: this call dropped the last reference */
    PERCPU_GATE_NOT_GIVEN = 2,      /* no reference is given: the gate was killed (or, for try_get, is at zero) */
    PERCPU_GATE_NOT_GIVEN_LAST = 3, /* no reference is given, and this call is the release */
    PERCPU_GATE_WAS_AT_ZERO = 4,    /* of resurrect: the gate had reached zero, and a call had returned LAST */
    /* the gate's own refusals */
    PERCPU_GATE_ERR_ALREADY_DEAD = 17,
    PERCPU_GATE_ERR_NOT_DEAD = 18,
    PERCPU_GATE_ERR_NOT_ZERO = 19,
    PERCPU_GATE_ERR_MID_SWITCH = 20, /* a kill that mark_dead began isn't ended yet */
    PERCPU_GATE_ERR_WORN_OUT = 21,   /* killed 2^40 times */
    PERCPU_GATE_ERR_PASSES_OUT = 22, /* passes weren't retired */
    /* misuse, and no memory or no passes left */
    PERCPU_GATE_ERR_CLOSED = 32,     /* the handle is closed */
    PERCPU_GATE_ERR_OPEN = 33,       /* the handle is open */
    PERCPU_GATE_ERR_BAD_SLOT = 34,   /* the gate has no such slot */
    PERCPU_GATE_ERR_BAD_SIZE = 35,   /* not 1 to 512 slots, 1 to 1,024 passes, or a start from 0 to 2 */
    PERCPU_GATE_ERR_NO_MEMORY = 36,
    PERCPU_GATE_ERR_IN_USE = 37,     /* of exit; can't occur through this API */
    PERCPU_GATE_ERR_OTHER_GATE = 38, /* the pass is of another gate */
    PERCPU_GATE_ERR_NO_PASS = 39,    /* every pass was given out */
    /* misuse of a gate alone */
    PERCPU_GATE_ERR_HELD_FULL = 64,  /* a pass holds at most 65,535 references */
    PERCPU_GATE_ERR_NOT_HELD = 65,   /* the pass doesn't hold that many */
    PERCPU_GATE_ERR_STILL_HELD = 66, /* the pass holds references */
    PERCPU_GATE_ERR_BAD_AMOUNT = 67, /* the amount is 0 */
    PERCPU_GATE_ERR_BAD_WORD = 68,   /* there are eight guarded words */
    PERCPU_GATE_ERR_BAD_STEP = 69    /* another step of a kill is due, or no kill is under way */
} percpu_gate_answer;

/* Whether an answer says that its call is the release: free what the gate guards. */
static inline bool percpu_gate_is_last(percpu_gate_answer answer)
{
    return answer == PERCPU_GATE_LAST || answer == PERCPU_GATE_NOT_GIVEN_LAST;
}

/* Whether an answer says that the call was refused for misuse, or because no memory or no passes were left: 32 or more. A
 * reference that isn't given is no misuse, and neither is a refusal by the gate. Every refusal is 16 or more. */
static inline bool percpu_gate_is_misuse(percpu_gate_answer answer) { return (uint32_t)answer >= 32; }

/* Returns a short text for an answer. It is never freed. */
const char *percpu_gate_text(percpu_gate_answer answer);

/* Returns the version of the library, which isn't PERCPU_GATE_VERSION if the headers are another version's. It is never freed. */
const char *percpu_gate_version(void);

/* ---- Making and ending a gate: for the thread that has the control. ---- */

/* Makes a gate of 1 to 512 slots and 1 to 1,024 passes with these guarded words, and opens the handle, which must be closed.
 * ERR_OPEN, ERR_BAD_SIZE, ERR_NO_MEMORY. Linux: percpu_ref_init. */
PERCPU_GATE_MUST_USE percpu_gate_answer percpu_gate_new(percpu_gate_control *control, uint32_t slots, uint32_t passes,
                                              uint32_t start, const uint64_t words[8]);

/* Gives the next pass to a closed handle. The gate is live, dead or being killed. ERR_CLOSED, ERR_OPEN, ERR_NO_PASS,
 * ERR_NO_MEMORY. */
PERCPU_GATE_MUST_USE percpu_gate_answer percpu_gate_next_pass(percpu_gate_control *control, percpu_gate_pass *pass);

/* Ends a pass that holds no reference, and closes its handle. The gate is live, dead or being killed. The thread that counted
 * with the pass must have handed it over. ERR_CLOSED, ERR_OTHER_GATE, ERR_STILL_HELD. */
PERCPU_GATE_MUST_USE percpu_gate_answer percpu_gate_retire(percpu_gate_control *control, percpu_gate_pass *pass);

/* Ends a gate, live or dead, once each pass that next_pass gave is retired; writes its last state, and closes the handle.
 * ERR_CLOSED, ERR_MID_SWITCH, ERR_PASSES_OUT, ERR_IN_USE, which can't occur through this API. Reporting it allocates; if that
 * fails, the call returns ERR_NO_MEMORY and the control is freed. Linux: percpu_ref_exit. */
PERCPU_GATE_MUST_USE percpu_gate_answer percpu_gate_exit(percpu_gate_control *control, percpu_gate_final *last);

/* Free the memory of a handle, and close it. A closed handle stays closed. The gate counts a freed pass as out forever: exit
 * returns ERR_PASSES_OUT, and free_control ends the gate. Passes whose control was freed still count, and can only be
 * freed. */
void percpu_gate_free_pass(percpu_gate_pass *pass);
void percpu_gate_free_control(percpu_gate_control *control);

/* Return the unique id of the gate, starting at 1, among the gates that this copy of the library made; 0 for a closed
 * handle. */
uint64_t percpu_gate_pass_number(percpu_gate_pass *pass);
uint64_t percpu_gate_control_number(percpu_gate_control *control);

/* ---- Counting: for the thread that has the pass, anywhere except in a signal handler. ---- */

/* Takes a reference unless the gate has reached zero: OK, NOT_GIVEN, NOT_GIVEN_LAST. A pass that holds a reference always
 * gets another. ERR_CLOSED, ERR_BAD_SLOT, ERR_HELD_FULL. Linux: percpu_ref_tryget. */
PERCPU_GATE_MUST_USE percpu_gate_answer percpu_gate_try_get(percpu_gate_pass *pass, uint32_t slot);

/* Takes a reference unless the gate was killed: OK, NOT_GIVEN, NOT_GIVEN_LAST. ERR_CLOSED, ERR_BAD_SLOT, ERR_HELD_FULL.
 * Linux: percpu_ref_tryget_live. */
PERCPU_GATE_MUST_USE percpu_gate_answer percpu_gate_try_get_live(percpu_gate_pass *pass, uint32_t slot);

/* Takes n more references, by a pass that holds one. ERR_CLOSED, ERR_BAD_SLOT, ERR_NOT_HELD, ERR_BAD_AMOUNT, ERR_HELD_FULL.
 * Linux: percpu_ref_get_many. */
PERCPU_GATE_MUST_USE percpu_gate_answer percpu_gate_get(percpu_gate_pass *pass, uint32_t slot, uint32_t n);

/* Puts n references of this pass: OK, or LAST if that puts the last reference after a kill. ERR_CLOSED, ERR_BAD_SLOT,
 * ERR_BAD_AMOUNT, ERR_NOT_HELD. Linux: percpu_ref_put_many. */
PERCPU_GATE_MUST_USE percpu_gate_answer percpu_gate_put(percpu_gate_pass *pass, uint32_t slot, uint32_t n);

/* Whether the gate was killed, and whether the count has reached zero; false for a closed handle.
 * Linux: percpu_ref_is_dying, percpu_ref_is_zero. */
bool percpu_gate_is_dying(percpu_gate_pass *pass);
bool percpu_gate_is_zero(percpu_gate_pass *pass);

/* Writes the front, a number that is odd from the confirmation of a kill to the next revival. percpu_gate_confirm says what it
 * is for. ERR_CLOSED. */
percpu_gate_answer percpu_gate_front(percpu_gate_pass *pass, uint64_t *front);

/* Writes the guarded word k, which stays the same while the pass holds a reference. ERR_CLOSED, ERR_NOT_HELD,
 * ERR_BAD_WORD. */
PERCPU_GATE_MUST_USE percpu_gate_answer percpu_gate_word(percpu_gate_pass *pass, uint32_t k, uint64_t *word);

/* ---- Killing and reviving: for the thread that has the control. ---- */

/* Kills the gate: LAST if no pass held a reference, else OK. After OK another call returns LAST, perhaps before this one
 * returns, or none does if resurrect comes first. ERR_CLOSED, ERR_ALREADY_DEAD, ERR_MID_SWITCH, ERR_WORN_OUT. Linux:
 * percpu_ref_kill. */
PERCPU_GATE_MUST_USE percpu_gate_answer percpu_gate_kill(percpu_gate_control *control);

/* A kill step by step, for a program that acts when the kill is confirmed. The steps are mark_dead, close_next for each
 * slot, collect if there were slots, confirm, and drop_base. The thread may do other work between them, and no step can
 * be undone. Until the last step kill, revivals, switches, store_word and exit return ERR_MID_SWITCH. A step out of its
 * turn returns ERR_BAD_STEP. Linux: percpu_ref_kill_and_confirm does all of them. */

/* Begins a kill, and writes how many slots have to be closed now: 0 if all counts are on the shared word already. From now on
 * try_get_live gives no reference on the shared word, nor on a slot once that is closed. ERR_CLOSED, ERR_ALREADY_DEAD,
 * ERR_MID_SWITCH, ERR_WORN_OUT. Linux: the setting of __PERCPU_REF_DEAD. */
PERCPU_GATE_MUST_USE percpu_gate_answer percpu_gate_mark_dead(percpu_gate_control *control, uint32_t *slots);

/* Closes the next slot: threads that use it count on the shared word from now on. ERR_CLOSED, ERR_BAD_STEP. Linux:
 * __percpu_ref_switch_to_atomic. */
percpu_gate_answer percpu_gate_close_next(percpu_gate_control *control);

/* Adds the counts of the closed slots to the shared word. ERR_CLOSED, ERR_BAD_STEP. Linux:
 * percpu_ref_switch_to_atomic_rcu. */
percpu_gate_answer percpu_gate_collect(percpu_gate_control *control);

/* Confirms the kill, and writes its front, which is odd. Once percpu_gate_front has written this front for a pass, try_get_live
 * gives that pass no reference until the next revival. The gate can't reach zero before drop_base. ERR_CLOSED, ERR_BAD_STEP.
 * Linux: the confirm_kill callback. */
percpu_gate_answer percpu_gate_confirm(percpu_gate_control *control, uint64_t *front);

/* Drops the initial reference, which ends the kill: LAST if no pass held a reference, else OK. ERR_CLOSED, ERR_BAD_STEP.
 * Linux: the percpu_ref_put of percpu_ref_kill_and_confirm. */
PERCPU_GATE_MUST_USE percpu_gate_answer percpu_gate_drop_base(percpu_gate_control *control);

/* Returns the phase of the control, one of PERCPU_GATE_PHASE_*, or ERR_CLOSED. */
uint32_t percpu_gate_phase(percpu_gate_control *control);

/* Whether the count has reached zero; false for a closed handle. Linux: percpu_ref_is_zero. */
bool percpu_gate_control_is_zero(percpu_gate_control *control);

/* Revives a dead gate that has reached zero. ERR_CLOSED, ERR_NOT_DEAD, ERR_NOT_ZERO, ERR_MID_SWITCH. Linux:
 * percpu_ref_reinit. */
PERCPU_GATE_MUST_USE percpu_gate_answer percpu_gate_reinit(percpu_gate_control *control);

/* Revives a dead gate: WAS_AT_ZERO if it had reached zero, else OK. After OK references are still held, and no call returns
 * LAST for the kill that ends here. ERR_CLOSED, ERR_NOT_DEAD, ERR_MID_SWITCH. Linux: percpu_ref_resurrect. */
PERCPU_GATE_MUST_USE percpu_gate_answer percpu_gate_resurrect(percpu_gate_control *control);

/* Make threads count on the shared word alone, or on slots, from now on. ERR_CLOSED, ERR_MID_SWITCH. Linux:
 * percpu_ref_switch_to_atomic_sync, percpu_ref_switch_to_percpu. */
percpu_gate_answer percpu_gate_switch_to_atomic(percpu_gate_control *control);
percpu_gate_answer percpu_gate_switch_to_slots(percpu_gate_control *control);

/* Stores the guarded word k of a gate that is dead and at zero. ERR_CLOSED, ERR_BAD_WORD, ERR_NOT_DEAD, ERR_NOT_ZERO,
 * ERR_MID_SWITCH. */
PERCPU_GATE_MUST_USE percpu_gate_answer percpu_gate_store_word(percpu_gate_control *control, uint32_t k, uint64_t v);

/* Writes the eight guarded words. (A pass that holds a reference reads them by percpu_gate_word.) ERR_CLOSED. */
percpu_gate_answer percpu_gate_all_words(percpu_gate_control *control, uint64_t words[8]);

/* Write the number of kills so far, and the number of releases: calls of the control and of retired passes that returned LAST
 * or NOT_GIVEN_LAST. ERR_CLOSED. */
percpu_gate_answer percpu_gate_kill_count(percpu_gate_control *control, uint64_t *kills);
percpu_gate_answer percpu_gate_release_count(percpu_gate_control *control, uint64_t *releases);

/* ---- The thread sanitizer ---- */

/* The thread sanitizer doesn't see the library's atomic steps. In code that is compiled with -fsanitize=thread, each call
 * that orders memory is a macro, which announces to the sanitizer what percpu_gate(3) promises under "Order". The program
 * needs to do nothing else. */

#if defined(__SANITIZE_THREAD__)
#define PERCPU_GATE_TELLS_TSAN 1
#elif defined(__has_feature)
#if __has_feature(thread_sanitizer)
#define PERCPU_GATE_TELLS_TSAN 1
#endif
#endif

#ifdef PERCPU_GATE_TELLS_TSAN
#include "percpu_gate/tsan.h"
#endif

#ifdef __cplusplus
}
#endif
#endif
