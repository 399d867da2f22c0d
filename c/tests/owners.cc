/* The owners for C++17: what isn't copied, what ends with its scope, each error by its name, and threads that submit while
 * limits change and while the queue dies. Compiled with no exceptions and no RTTI too. */
#include "freeze_queue.hpp"
#include "holds.hpp"
#include "percpu_gate.hpp"

#include <atomic>
#include <cstdio>
#include <cstdlib>
#include <cstring>
#include <exception>
#include <fcntl.h>
#include <limits>
#include <optional>
#include <sys/wait.h>
#include <thread>
#include <type_traits>
#include <unistd.h>
#include <vector>

using namespace std::chrono_literals;

template <class T> constexpr bool moves_alone = !std::is_copy_constructible_v<T> && !std::is_copy_assignable_v<T> &&
                                                std::is_nothrow_move_constructible_v<T> && std::is_move_assignable_v<T>;
static_assert(moves_alone<blkq::Queue> && moves_alone<blkq::Tag> && moves_alone<blkq::Pool> &&
              moves_alone<blkq::Request> && moves_alone<blkq::Freeze>);
static_assert(moves_alone<percpu_gate::Gate> && moves_alone<percpu_gate::Pass> && moves_alone<percpu_gate::Reference>);
/* The handles of the C headers aren't copied by accident, and are closed at first. */
static_assert(!std::is_copy_constructible_v<freeze_queue_tag> && !std::is_copy_assignable_v<freeze_queue>);
static_assert(!std::is_copy_constructible_v<percpu_gate_pass> && !std::is_copy_assignable_v<percpu_gate_control>);
static_assert(std::is_standard_layout_v<freeze_queue_tag> && std::is_standard_layout_v<percpu_gate_control>);

/* ---- The queue ---- */

static void requests_end_with_their_scope(blkq::Queue &queue)
{
    auto tag = queue.next_tag();
    IS(tag && !tag->enter(9) && tag->enter(9).error() == blkq::Error::bad_slot);
    {
        auto request = tag->enter(0);
        IS(bool(request) && request->limits().max == 64);
        IS(tag->try_enter(0).error() == blkq::Error::already_entered);
        IS(queue.freeze(1ms).error() == blkq::Error::timed_out);
        auto moved = std::move(*request);
        moved.leaves_on(1);
        std::uint64_t next = 100;
        IS(bool(moved.each_piece(100, 150, [&next](auto start, auto sectors) {
            IS(start == next && sectors <= 64);
            next += sectors;
        })));
        IS(next == 250);
        IS(moved.each_piece(0, 0, [](auto, auto) {}) && !moved.each_piece(std::uint64_t{1} << 33, 1, [](auto, auto) {}));
    }
    {
        auto request = tag->enter(0);
        IS(bool(request));
        auto dropped = queue.freeze(1ms);
        IS(dropped.error() == blkq::Error::timed_out);
    }
    auto freeze = queue.freeze();
    IS(bool(freeze) && queue.depth() == 1 && tag->try_enter(0).error() == blkq::Error::not_entered);
    IS(tag->enter(0, std::chrono::steady_clock::now()).error() == blkq::Error::timed_out);
    IS(bool(freeze->set({64, 8, 0, 0})) && freeze->set({63, 8, 0, 0}).error() == blkq::Error::other_hardware);
    { auto ended = std::move(*freeze); }
    IS(queue.depth() == 0 && queue.limits().max == 8 && tag->enter(0));
}

static void limits_change(blkq::Queue &queue)
{
    IS(bool(queue.change({64, 0, 0, 0}, 5s)) && queue.limits().max == 64);
    IS(queue.change({64, 65, 0, 0}).error() == blkq::Error::above_hardware);
    std::uint32_t chunk = 12;
    IS(bool(queue.update([chunk](blkq::Limits &limits) { limits.chunk = chunk; })) && queue.limits().chunk == 12);
    const auto sets_max = [](blkq::Limits &limits) { limits.max = 16; };
    IS(bool(queue.update(sets_max, 1s)) && queue.limits().max == 16 && queue.limits().chunk == 12);
    IS(queue.update([](auto &limits) { limits.physical = 3; }).error() == blkq::Error::bad_physical);
    IS(bool(queue.mode(blkq::Mode::atomic)) && bool(queue.mode(blkq::Mode::slots)));
    IS(std::strcmp(blkq::text(blkq::Error::dying), "the queue is dying") == 0);
}

/* Threads submit by a pool while limits change, until the queue dies; some of them wait for a tag, or for a thaw. */
static void a_pool_is_used_and_dies()
{
    auto queue = blkq::Queue::make({64, 0, 0, 0}, 4, 3);
    IS(blkq::Queue::make({0, 0, 0, 0}, 4, 3).error() == blkq::Error::hardware_range);
    IS(blkq::Pool::make(*queue, 4).error() == blkq::Error::no_tag);
    auto pool = blkq::Pool::make(*queue, 3);
    IS(queue && pool);
    std::vector<std::thread> threads;
    for (std::uint32_t me = 0; me < 4; me++)
        threads.emplace_back([&pool, me] {
            for (;;)
                if (auto request = pool->enter(me); !request) {
                    if (request.error() != blkq::Error::dying)
                        std::abort();
                    return;
                }
        });
    for (std::uint32_t i = 1; i < 200; i++)
        IS(bool(queue->update([i](auto &limits) { limits.max = 1 + i % 64; })));
    pool->watch(true);
    freeze_queue_taken list[3];
    IS(pool->in_flight(list, 3) <= 3);
    IS(bool(queue->mark_dying()));
    for (auto &thread : threads)
        thread.join();
    IS(pool->try_enter(0).error() == blkq::Error::dying && pool->in_flight(list, 3) == 0);
    IS(bool(queue->change({64, 9, 0, 0})) && bool(queue->update([](auto &limits) { limits.chunk = 4; })));
    IS(bool(queue->freeze()) && queue->depth() == 2); /* one is the mark's */
    IS(queue->depth() == 1 && queue->limits().max == 9 && queue->limits().chunk == 4);
}

/* The example of freeze_queue.hpp, with a function that counts: no result of it is dropped. */
static blkq::Error the_example(std::uint32_t slots, std::uint32_t tags, std::uint32_t slot, std::uint32_t count)
{
    auto made = blkq::Queue::make({64, 0, 0, 0}, slots, tags);
    if (!made)
        return made.error();
    auto tag = made->next_tag();
    if (!tag)
        return tag.error();
    {
        auto request = tag->enter(slot);
        if (!request)
            return request.error();
        const auto submits = [&count](auto at, auto sectors) { count -= at < 100 ? sectors : 0; };
        if (auto cut = request->each_piece(0, count, submits); !cut)
            return cut.error();
    }
    if (auto set = made->update([](auto &limits) { limits.max = 8; }); !set)
        return set.error();
    return count == 0 && made->limits().max == 8 ? blkq::Error::closed : blkq::Error::open;
}

/* What is moved onto ends at once, and what is moved onto itself stays. */
static void a_move_ends_what_was_there()
{
    auto queue = blkq::Queue::make({64, 0, 0, 0}, 1, 4), other = blkq::Queue::make({64, 0, 0, 0}, 1, 1);
    auto pool = blkq::Pool::make(*queue, 2), second = blkq::Pool::make(*queue, 2);
    blkq::Request current = std::move(*pool->enter(0));
    auto next = pool->enter(0);
    current = std::move(*next);
    IS(pool->in_flight(nullptr, 0) == 1);
    auto &same = current;
    current = std::move(same);
    IS(pool->in_flight(nullptr, 0) == 1 && current.limits().max == 64);
    { auto ended = std::move(current); }
    IS(pool->in_flight(nullptr, 0) == 0 && queue->next_tag().error() == blkq::Error::no_tag);
    *pool = std::move(*second);
    auto tag = queue->next_tag(), others = other->next_tag();
    IS(tag && others && other->next_tag().error() == blkq::Error::no_tag);
    *others = std::move(*tag);
    IS(bool(other->next_tag()) && others->enter(0));
    auto outer = queue->freeze(), inner = queue->freeze();
    IS(queue->depth() == 2);
    *outer = std::move(*inner);
    IS(queue->depth() == 1);
    IS(freeze_queue_waits_open_events(other->waits()) == 0);
    const int event = freeze_queue_waits_live_event(other->waits());
    auto last = blkq::Queue::make({32, 0, 0, 0}, 1, 1);
    *other = std::move(*last);
    IS(fcntl(event, F_GETFD) == -1 && other->limits().max == 32);
}

/* A try tells whether the queue is frozen, no tag is there, or the queue is dying. */
static void a_try_tells_why()
{
    auto queue = blkq::Queue::make({64, 0, 0, 0}, 1, 2);
    auto pool = blkq::Pool::make(*queue, 2);
    auto first = pool->enter(0);
    IS(freeze_queue_waits_begin_freeze(queue->waits()) == FREEZE_QUEUE_OK);
    IS(pool->try_enter(0).error() == blkq::Error::not_entered);
    IS(freeze_queue_waits_thaw(queue->waits()) == FREEZE_QUEUE_LIVE_AGAIN);
    auto second = pool->try_enter(0);
    IS(first && second && pool->try_enter(0).error() == blkq::Error::no_tag);
    IS(pool->enter(0, 1ms).error() == blkq::Error::timed_out);
    IS(queue->mark_dying() && pool->try_enter(0).error() == blkq::Error::dying);
}

/* A call that waits for a tag is answered by the end of its pool, while each request is in flight. */
static void a_pool_ends_beside_a_call_that_waits(bool dies)
{
    const auto why = dies ? blkq::Error::dying : blkq::Error::closed;
    auto queue = blkq::Queue::make({64, 0, 0, 0}, 1, 1);
    auto pool = blkq::Pool::make(*queue, 1);
    std::optional<blkq::Request> held(std::move(*pool->enter(0)));
    bool is_answered = false, has_ended = false;
    IS(pool->end(0ns).error() == blkq::Error::timed_out && pool->in_flight(nullptr, 0) == 1);
    IS(!dies || queue->mark_dying());
    std::thread waits([&] { is_answered = pool->enter(0).error() == why; });
    std::thread ends([&] { has_ended = bool(pool->end()); });
    waits.join(); /* for ever, if the end doesn't answer it */
    IS(is_answered && queue->end(0ns).error() == blkq::Error::timed_out);
    held.reset();
    ends.join();
    IS(has_ended && pool->enter(0).error() == blkq::Error::dying && pool->in_flight(nullptr, 0) == 0);
    IS(pool->end().error() == blkq::Error::closed && queue->end());
    auto moved = std::move(*queue);
}

/* The pool of a live queue ends, and then its tags are the queue's. */
static void a_pool_of_a_live_queue_ends()
{
    auto queue = blkq::Queue::make({64, 0, 0, 0}, 1, 1);
    auto pool = blkq::Pool::make(*queue, 1);
    IS(pool->end() && pool->enter(0).error() == blkq::Error::closed);
    IS(pool->enter(0, 0ns).error() == blkq::Error::closed && pool->try_enter(0).error() == blkq::Error::closed);
    IS(bool(queue->next_tag()));
}

/* A queue whose end was in vain is ended by its destructor, and one that has ended isn't once more: nor are its events closed. */
static void a_queue_ends_once()
{
    int event = -1;
    {
        auto queue = blkq::Queue::make({64, 0, 0, 0}, 1, 1);
        IS(freeze_queue_waits_open_events(queue->waits()) == 0);
        event = freeze_queue_waits_live_event(queue->waits());
        auto tag = queue->next_tag();
        IS(queue->end(0ns).error() == blkq::Error::timed_out && fcntl(event, F_GETFD) != -1);
    }
    IS(fcntl(event, F_GETFD) == -1);
    {
        auto queue = blkq::Queue::make({64, 0, 0, 0}, 1, 1);
        IS(freeze_queue_waits_open_events(queue->waits()) == 0);
        event = freeze_queue_waits_live_event(queue->waits());
        IS(queue->end() && fcntl(event, F_GETFD) == -1 && dup2(STDOUT_FILENO, event) == event);
    }
    IS(close(event) == 0);
}

/* ---- Deadlines ---- */

template <class Duration> static std::int64_t nanoseconds_until(Duration since)
{
    const blkq::Deadline at(std::chrono::time_point<std::chrono::steady_clock, Duration>{since});
    return std::int64_t{at.get()->tv_sec} * 1000000000 + at.get()->tv_nsec;
}

static void deadlines_are_clamped()
{
    const auto most = std::numeric_limits<std::int64_t>::max();
    const auto nothing = std::numeric_limits<double>::quiet_NaN(), endless = std::numeric_limits<double>::infinity();
    using Seconds = std::chrono::duration<double>;
    IS(nanoseconds_until(std::chrono::hours::max()) == most && nanoseconds_until(std::chrono::nanoseconds::max()) == most);
    IS(nanoseconds_until(Seconds(1e300)) == most && nanoseconds_until(Seconds(endless)) == most);
    IS(nanoseconds_until(std::chrono::seconds(10000000000)) == most && nanoseconds_until(9000000000s) == 9000000000000000000);
    IS(nanoseconds_until(Seconds(nothing)) == 0 && nanoseconds_until(Seconds(-endless)) == 0);
    IS(nanoseconds_until(std::chrono::hours::min()) == 0 && nanoseconds_until(-1ns) == 0 && nanoseconds_until(0s) == 0);
    IS(nanoseconds_until(1ns) == 1 && nanoseconds_until(2h) == 7200000000000 && nanoseconds_until(Seconds(1e-300)) == 1);
    IS(nanoseconds_until(std::chrono::duration<std::int64_t, std::ratio<1, 3>>(1)) == 333333334);
    IS(nanoseconds_until(std::chrono::nanoseconds(most - 1)) == most - 1);
    IS(nanoseconds_until(std::chrono::duration<long double, std::nano>(0x1p63L)) == most);
    const blkq::Deadline far(std::chrono::hours::max()), near(std::chrono::hours::min()), none;
    IS(far.get()->tv_sec >= most / 1000000000 && !far.has_passed() && near.has_passed() && !none.has_passed() && !none.get());
    auto queue = blkq::Queue::make({64, 0, 0, 0}, 1, 1);
    auto tag = queue->next_tag();
    std::optional<blkq::Request> held(std::move(*tag->enter(0)));
    std::atomic<bool> is_back{false};
    bool is_frozen = false;
    std::thread freezes([&] {
        is_frozen = bool(queue->freeze(std::chrono::hours::max()));
        is_back = true;
    });
    while (queue->depth() == 0 && !is_back)
        std::this_thread::yield();
    held.reset();
    freezes.join();
    IS(is_frozen);
}

/* A time of the second before has passed, with however many nanoseconds. */
static void a_deadline_of_the_second_before_has_passed()
{
    const timespec now = freeze_queue_deadline(0);
    const blkq::Deadline before(std::chrono::steady_clock::time_point(std::chrono::seconds(now.tv_sec - 1) + 999999999ns));
    IS(before.has_passed());
}

/* A function of update that throws ends the program. */
static void a_function_that_throws_ends_the_program()
{
#if defined(__cpp_exceptions)
    const pid_t child = fork();
    if (child == 0) {
        std::set_terminate([] { std::_Exit(7); });
        auto queue = blkq::Queue::make({64, 0, 0, 0}, 1, 1);
        try {
            std::_Exit(queue->update([](auto &) { throw 1; }) ? 1 : 2);
        } catch (int) {
            std::_Exit(3);
        }
    }
    int status = 0;
    IS(waitpid(child, &status, 0) == child && WIFEXITED(status) && WEXITSTATUS(status) == 7);
#endif
}

/* ---- The gate ---- */

static void counts(void *told) { ++*static_cast<int *>(told); }

static void references_are_put()
{
    int told = 0;
    IS(percpu_gate::Gate::make(513, 1, counts).error() == percpu_gate::Error::bad_size);
    auto gate = percpu_gate::Gate::make(2, 2, counts, &told);
    auto pass = gate->next_pass(), other = gate->next_pass();
    IS(gate && pass && other && gate->next_pass().error() == percpu_gate::Error::no_pass);
    {
        auto reference = pass->try_get_live(0);
        IS(bool(reference) && reference->word(0) && *reference->word(7) == 0);
        IS(reference->word(8).error() == percpu_gate::Error::bad_word);
        IS(gate->kill() && told == 0 && pass->is_dying() && !gate->is_zero());
        IS(other->try_get_live(1).error() == percpu_gate::Error::not_given);
        IS(gate->retire(*pass).error() == percpu_gate::Error::still_held);
        auto moved = std::move(*reference);
        IS(told == 0);
    }
    IS(told == 1 && gate->is_zero() && pass->is_zero());
    IS(gate->store_word(0, 77) && gate->reinit() && *pass->try_get(1)->word(0) == 77);
    IS(gate->kill() && told == 2 && gate->kill().error() == percpu_gate::Error::already_dead);
    IS(bool(gate->retire(*other)) && gate->retire(*other).error() == percpu_gate::Error::closed);
    IS(std::strcmp(percpu_gate::text(percpu_gate::Error::no_memory), "no memory") == 0);
}

/* What is moved onto is put at once: the last reference of a killed gate. */
static void a_moved_reference_puts_what_was_there()
{
    int told = 0;
    auto gate = percpu_gate::Gate::make(1, 1, counts, &told), other = percpu_gate::Gate::make(1, 1, counts, &told);
    auto pass = gate->next_pass(), others = other->next_pass();
    auto reference = pass->try_get_live(0), next = others->try_get_live(0);
    IS(reference && next && gate->kill() && told == 0);
    *reference = std::move(*next);
    IS(told == 1 && gate->is_zero());
    auto &same = *reference;
    *reference = std::move(same);
    IS(other->kill() && told == 1 && !other->is_zero());
    { auto ended = std::move(*reference); }
    IS(told == 2);
    *pass = std::move(*others);
    *gate = std::move(*other);
    IS(pass->is_zero() && gate->is_zero());
}

int main()
{
    {
        auto queue = blkq::Queue::make({64, 0, 0, 0}, 2, 2);
        requests_end_with_their_scope(*queue);
        limits_change(*queue);
        auto moved = std::move(*queue);
        IS(moved.depth() == 0);
    }
    a_pool_is_used_and_dies();
    IS(the_example(1, 1, 0, 100) == blkq::Error::closed && the_example(1, 1, 1, 1) == blkq::Error::bad_slot);
    a_move_ends_what_was_there();
    a_try_tells_why();
    a_pool_ends_beside_a_call_that_waits(true);
    a_pool_ends_beside_a_call_that_waits(false);
    a_pool_of_a_live_queue_ends();
    a_queue_ends_once();
    deadlines_are_clamped();
    a_deadline_of_the_second_before_has_passed();
    a_function_that_throws_ends_the_program();
    references_are_put();
    a_moved_reference_puts_what_was_there();
    std::printf("%s\n", failures ? "FAILED" : "each as its scope has it");
    return failures != 0;
}
