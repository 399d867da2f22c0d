/* What the owners for C++17 call: each call whose answer says that it put the last reference of a gate calls the function for the release, once,
 * and no other does; and each owner ends on its own slot. By -Wl,--wrap the linker takes the functions below for the library's. */
#include "freeze_queue.hpp"
#include "holds.hpp"
#include "percpu_gate.hpp"

static percpu_gate_answer answer; /* of each call of a gate */
static int released;
static std::uint32_t ended_on; /* the slot of the last put or leave */

extern "C" {
percpu_gate_answer __wrap_percpu_gate_try_get_live(percpu_gate_pass *, std::uint32_t) { return answer; }
percpu_gate_answer __wrap_percpu_gate_try_get(percpu_gate_pass *, std::uint32_t) { return answer; }
percpu_gate_answer __wrap_percpu_gate_put(percpu_gate_pass *, std::uint32_t slot, std::uint32_t)
{
    ended_on = slot;
    return answer;
}
percpu_gate_answer __wrap_percpu_gate_kill(percpu_gate_control *) { return answer; }
freeze_queue_answer __real_freeze_queue_waits_leave(freeze_queue_waits *, freeze_queue_tag *, std::uint32_t);
freeze_queue_answer __wrap_freeze_queue_waits_leave(freeze_queue_waits *waits, freeze_queue_tag *tag, std::uint32_t slot)
{
    ended_on = slot;
    return __real_freeze_queue_waits_leave(waits, tag, slot);
}
}

static void releases(void *) { released++; }

/* How often a call with this answer calls the function for the release. */
template <class Call> static int released_by(percpu_gate_answer answers, Call calls)
{
    answer = answers;
    released = 0;
    calls();
    return released;
}

static void each_release_is_told_once()
{
    auto gate = percpu_gate::Gate::make(1, 1, releases), silent = percpu_gate::Gate::make(1, 1, nullptr);
    auto pass = gate->next_pass(), quiet = silent->next_pass();
    const auto live = [&] { (void)pass->try_get_live(0); };
    const auto any = [&] { (void)pass->try_get(0); };
    const auto kills = [&] { (void)gate->kill(); };
    for (const percpu_gate_answer refused : {PERCPU_GATE_NOT_GIVEN, PERCPU_GATE_ERR_BAD_SLOT})
        IS(released_by(refused, live) == 0 && released_by(refused, any) == 0);
    IS(released_by(PERCPU_GATE_NOT_GIVEN_LAST, live) == 1 && released_by(PERCPU_GATE_NOT_GIVEN_LAST, any) == 1);
    IS(released_by(PERCPU_GATE_OK, kills) == 0 && released_by(PERCPU_GATE_LAST, kills) == 1);
    IS(released_by(PERCPU_GATE_ERR_ALREADY_DEAD, kills) == 0);
    for (const percpu_gate_answer put : {PERCPU_GATE_OK, PERCPU_GATE_LAST}) {
        answer = PERCPU_GATE_OK;
        auto reference = pass->try_get(0);
        IS(released_by(put, [&] { auto moved = std::move(*reference); }) == (put == PERCPU_GATE_LAST ? 1 : 0));
    }
    IS(released_by(PERCPU_GATE_NOT_GIVEN_LAST, [&] { (void)quiet->try_get(0); }) == 0);
}

/* The slot on which the first owner ends as it takes over the second, and that on which the second ends. */
template <class Owner> static std::pair<std::uint32_t, std::uint32_t> ends_on(Owner one, Owner two)
{
    one = std::move(two);
    const auto first = ended_on;
    {
        const auto moved = std::move(one);
    }
    return {first, ended_on};
}

static void each_ends_on_its_slot()
{
    auto gate = percpu_gate::Gate::make(3, 2, releases);
    auto pass = gate->next_pass(), other = gate->next_pass();
    answer = PERCPU_GATE_OK;
    IS(ends_on(std::move(*pass->try_get(1)), std::move(*other->try_get(2))) == std::make_pair(1u, 2u));
    auto queue = blkq::Queue::make({64, 0, 0, 0}, 3, 4);
    auto tag = queue->next_tag(), another = queue->next_tag();
    IS(ends_on(std::move(*tag->enter(2)), std::move(*another->enter(1))) == std::make_pair(2u, 1u));
    auto pool = blkq::Pool::make(*queue, 2);
    auto request = pool->enter(0);
    request->leaves_on(1);
    IS(ends_on(std::move(*request), std::move(*tag->enter(2))) == std::make_pair(1u, 2u));
}

int main()
{
    each_release_is_told_once();
    each_ends_on_its_slot();
    std::printf("%s\n", failures ? "FAILED" : "each release once, on its slot");
    return failures != 0;
}
