/* Misuse of the owners for C++17: what outlives what, and what ends the program with a sentence, in a child of its own. With
 * FREEZE_QUEUE_THROWS a Result without a value throws from value(). */
#include "freeze_queue.hpp"
#include "holds.hpp"
#include "percpu_gate.hpp"

#include <csignal>
#include <cstdio>
#include <cstring>
#include <sys/wait.h>
#include <unistd.h>

using namespace std::chrono_literals;

static blkq::Queue a_queue() { return blkq::Queue::make({64, 0, 0, 0}, 2, 4).value(); }

/* Whether a function aborts, with a sentence that has these words. */
template <class Function> static bool ends_with(const char *words, Function misuses)
{
    char said[200] = {};
    int status = 0;
    std::FILE *file = std::tmpfile();
    const pid_t child = file != nullptr ? fork() : -1;
    if (child == 0) {
        dup2(fileno(file), 2);
        misuses();
        std::_Exit(0);
    }
    if (child < 0 || waitpid(child, &status, 0) != child)
        std::_Exit(2);
    std::rewind(file);
    if (std::fgets(said, sizeof said, file) == nullptr)
        said[0] = 0;
    std::fclose(file);
    return WIFSIGNALED(status) && WTERMSIG(status) == SIGABRT && std::strstr(said, words) != nullptr;
}

/* A request that outlives its tag has limits, and gives the tag back when it leaves. */
static void a_tag_ends_before_its_request()
{
    auto queue = blkq::Queue::make({64, 0, 0, 0}, 2, 1).value();
    {
        auto request = [&queue] { return queue.next_tag().value().enter(0).value(); }();
        IS(request.limits().max == 64);
        IS(queue.next_tag().error() == blkq::Error::no_tag);
        IS(queue.freeze(1ms).error() == blkq::Error::timed_out);
    }
    IS(bool(queue.next_tag()));
    IS(bool(queue.freeze(0ms)));
    {
        auto tag = queue.next_tag().value();
        auto first = tag.enter(0);
        auto moved = std::move(*first);
        first = blkq::Error::closed;
        IS(moved.limits().max == 64 && tag.enter(0).error() == blkq::Error::already_entered);
    }
    IS(queue.end() && queue.end().error() == blkq::Error::closed);
}

/* The gate, its pass and its reference. */
static void a_gate_is_used_that_was_moved_from()
{
    IS(ends_with("a gate that was moved from is used", [] {
        auto gate = percpu_gate::Gate::make(1, 1, nullptr);
        auto moved = std::move(*gate);
        (void)gate->kill();
    }));
    IS(ends_with("a pass that was moved from is used", [] {
        auto gate = percpu_gate::Gate::make(1, 1, nullptr);
        auto pass = gate->next_pass();
        auto moved = std::move(*pass);
        (void)pass->try_get(0);
    }));
    IS(ends_with("a reference that was moved from is used", [] {
        auto gate = percpu_gate::Gate::make(1, 1, nullptr);
        auto pass = gate->next_pass();
        auto reference = pass->try_get(0);
        auto moved = std::move(*reference);
        (void)reference->word(0);
    }));
}

static void owners_are_used_that_were_moved_from()
{
    auto queue = a_queue();
    auto tag = queue.next_tag().value();
    auto request = tag.enter(0).value();
    auto pool = blkq::Pool::make(queue, 2).value();
    const auto request_moved = std::move(request);
    const auto tag_moved = std::move(tag);
    const auto pool_moved = std::move(pool);
    IS(ends_with("moved from", [&] { (void)request.limits(); }));
    IS(ends_with("moved from", [&] { (void)request.each_piece(0, 8, [](auto, auto) {}); }));
    IS(ends_with("moved from", [&] { (void)tag.enter(0); }));
    IS(ends_with("moved from", [&] { (void)tag.try_enter(0); }));
    IS(ends_with("moved from", [&] { (void)pool.enter(0); }));
    IS(ends_with("moved from", [&] { (void)pool.end(); }));
    auto other = a_queue();
    auto freeze = other.freeze().value();
    {
        auto freeze_moved = std::move(freeze);
        IS(ends_with("moved from", [&] { (void)freeze.set({64, 8, 0, 0}); }));
    }
    auto other_moved = std::move(other);
    IS(ends_with("moved from", [&] { (void)other.depth(); }));
    IS(ends_with("moved from", [&] { (void)other.mark_dying(); }));
    IS(bool(other_moved.end()));
    IS(ends_with("has ended", [&] { (void)other_moved.depth(); }));
    IS(ends_with("has ended", [&] { (void)other_moved.next_tag(); }));
}

/* The events of a queue and of a pool are opened once, and closed with them. */
static void events_are_opened()
{
    auto queue = a_queue();
    auto pool = blkq::Pool::make(queue, 1).value();
    IS(queue.live_event() == -1 && queue.drained_event() == -1 && pool.event() == -1);
    IS(queue.open_events() && pool.open_event());
    IS(queue.open_events().error() == blkq::Error::open && pool.open_event().error() == blkq::Error::open);
    IS(queue.live_event() >= 0 && queue.drained_event() >= 0 && pool.event() >= 0);
    IS(queue.live_event() != queue.drained_event() && pool.event() != queue.live_event());
}

/* A request leaves on the slot that it was given last. A slot that its queue doesn't have ends the program at once. */
static void a_request_leaves_on_another_slot()
{
    auto queue = a_queue();
    auto pool = blkq::Pool::make(queue, 2).value();
    for (const bool is_of_pool : {true, false}) {
        auto tag = queue.next_tag().value();
        auto request = is_of_pool ? pool.enter(0).value() : tag.enter(0).value();
        IS(ends_with("slot that its queue doesn't have", [&] { request.leaves_on(2); }));
        IS(ends_with("slot that its queue doesn't have", [&] { request.leaves_on(99); }));
        request.leaves_on(1);
        const auto moved = std::move(request);
        IS(ends_with("moved from", [&] { request.leaves_on(1); }));
        IS(queue.freeze(1ms).error() == blkq::Error::timed_out);
    }
    IS(pool.in_flight(nullptr, 0) == 0 && queue.freeze(0ns));
}

/* A freeze that is alive at the end of its queue has nothing to thaw. */
static void a_queue_ends_before_its_freeze()
{
    auto queue = a_queue();
    {
        auto freeze = queue.freeze().value();
        IS(bool(queue.end()));
        IS(ends_with("has ended", [&] { (void)freeze.set({64, 8, 0, 0}); }));
        auto moved = std::move(freeze);
    }
    IS(queue.end().error() == blkq::Error::closed);
}

/* A destructor whose call is refused ends the program: here a call of the C header has thawed the freeze before. */
static void a_freeze_is_thawed_twice()
{
    auto queue = a_queue();
    IS(ends_with(blkq::text(blkq::Error::not_frozen), [&] {
        auto freeze = queue.freeze().value();
        (void)!freeze_queue_waits_thaw(queue.waits());
    }));
}

static void results_without_a_value()
{
    IS(ends_with("without a value", [] { (void)blkq::Queue::make({0, 0, 0, 0}, 1, 1)->depth(); }));
    IS(ends_with("without a value", [] { (void)(*blkq::Queue::make({0, 0, 0, 0}, 1, 1)).depth(); }));
    IS(ends_with("", [] { (void)*percpu_gate::Gate::make(0, 1, nullptr); }));
    IS(ends_with("", [] { (void)percpu_gate::Gate::make(0, 1, nullptr)->kill(); }));
#ifdef FREEZE_QUEUE_THROWS
    for (int which = 0; which < 2; which++)
        try {
            auto queue = a_queue();
            if (which == 0)
                queue.change({64, 65, 0, 0}).value();
            else
                (void)blkq::Queue::make({0, 0, 0, 0}, 1, 1).value();
            IS(false);
        } catch (const blkq::Refused &refused) {
            const auto error = which == 0 ? blkq::Error::above_hardware : blkq::Error::hardware_range;
            IS(refused.error() == error && std::strcmp(refused.what(), blkq::text(error)) == 0);
        }
#else
    IS(ends_with(blkq::text(blkq::Error::hardware_range), [] { (void)blkq::Queue::make({0, 0, 0, 0}, 1, 1).value(); }));
    IS(ends_with(blkq::text(blkq::Error::above_hardware), [] { a_queue().change({64, 65, 0, 0}).value(); }));
#endif
    auto queue = a_queue();
    queue.change({64, 8, 0, 0}).value();
    IS(queue.limits().max == 8);
}

int main()
{
    a_tag_ends_before_its_request();
    a_gate_is_used_that_was_moved_from();
    owners_are_used_that_were_moved_from();
    events_are_opened();
    a_request_leaves_on_another_slot();
    a_queue_ends_before_its_freeze();
    a_freeze_is_thawed_twice();
    results_without_a_value();
    std::printf("%s\n", failures ? "FAILED" : "each as it says");
    return failures != 0;
}
