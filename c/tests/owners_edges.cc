/* The owners for C++17, where a field could be forgotten: what a move assignment carries, a queue whose end is refused, the
 * number of each name, and the handles of the C headers in C++. Compiled with no exceptions and no RTTI too. The first wrong answer ends the
 * program, since a destructor might wait for ever after it. */
#include "freeze_queue.hpp"
#include "percpu_gate.hpp"

#include <cstdio>
#include <cstdlib>
#include <cstring>
#include <fcntl.h>
#include <thread>

using namespace std::chrono_literals;
using blkq::Error;
using blkq::Mode;
using blkq::Pool;
using blkq::Queue;

static void is(const char *what, bool holds, int line)
{
    if (holds)
        return;
    std::fprintf(stderr, "line %d: not %s\n", line, what);
    std::_Exit(1);
}

#define IS(holds) is(#holds, holds, __LINE__)

/* ---- Numbers ---- */

#define HAS_NUMBER(name, number) static_assert(static_cast<std::uint32_t>(name) == (number), #name)

HAS_NUMBER(Error::not_entered, FREEZE_QUEUE_NOT_ENTERED);
HAS_NUMBER(Error::depth_full, FREEZE_QUEUE_ERR_DEPTH_FULL);
HAS_NUMBER(Error::not_frozen, FREEZE_QUEUE_ERR_NOT_FROZEN);
HAS_NUMBER(Error::not_drained, FREEZE_QUEUE_ERR_NOT_DRAINED);
HAS_NUMBER(Error::tags_out, FREEZE_QUEUE_ERR_TAGS_OUT);
HAS_NUMBER(Error::worn_out, FREEZE_QUEUE_ERR_WORN_OUT);
HAS_NUMBER(Error::above_hardware, FREEZE_QUEUE_ERR_ABOVE_HARDWARE);
HAS_NUMBER(Error::chunk_too_large, FREEZE_QUEUE_ERR_CHUNK_TOO_LARGE);
HAS_NUMBER(Error::hardware_range, FREEZE_QUEUE_ERR_HARDWARE_RANGE);
HAS_NUMBER(Error::bad_physical, FREEZE_QUEUE_ERR_BAD_PHYSICAL);
HAS_NUMBER(Error::other_hardware, FREEZE_QUEUE_ERR_OTHER_HARDWARE);
HAS_NUMBER(Error::timed_out, FREEZE_QUEUE_ERR_TIMED_OUT);
HAS_NUMBER(Error::dying, FREEZE_QUEUE_ERR_DYING);
HAS_NUMBER(Error::closed, FREEZE_QUEUE_ERR_CLOSED);
HAS_NUMBER(Error::open, FREEZE_QUEUE_ERR_OPEN);
HAS_NUMBER(Error::bad_slot, FREEZE_QUEUE_ERR_BAD_SLOT);
HAS_NUMBER(Error::bad_size, FREEZE_QUEUE_ERR_BAD_SIZE);
HAS_NUMBER(Error::no_memory, FREEZE_QUEUE_ERR_NO_MEMORY);
HAS_NUMBER(Error::in_use, FREEZE_QUEUE_ERR_IN_USE);
HAS_NUMBER(Error::other_queue, FREEZE_QUEUE_ERR_OTHER_QUEUE);
HAS_NUMBER(Error::no_tag, FREEZE_QUEUE_ERR_NO_TAG);
HAS_NUMBER(Error::already_entered, FREEZE_QUEUE_ERR_ALREADY_ENTERED);
HAS_NUMBER(Error::tag_not_entered, FREEZE_QUEUE_ERR_TAG_NOT_ENTERED);
HAS_NUMBER(Error::bad_mode, FREEZE_QUEUE_ERR_BAD_MODE);
HAS_NUMBER(Error::bad_range, FREEZE_QUEUE_ERR_BAD_RANGE);
HAS_NUMBER(Error::tag_not_out, FREEZE_QUEUE_ERR_TAG_NOT_OUT);
HAS_NUMBER(Error::bad_deadline, FREEZE_QUEUE_ERR_BAD_DEADLINE);
HAS_NUMBER(Error::bad_return, FREEZE_QUEUE_ERR_BAD_RETURN);
HAS_NUMBER(Error::in_update, FREEZE_QUEUE_ERR_IN_UPDATE);
HAS_NUMBER(Error::no_event, FREEZE_QUEUE_ERR_NO_EVENT);
HAS_NUMBER(Mode::slots, FREEZE_QUEUE_MODE_SLOTS);
HAS_NUMBER(Mode::atomic, FREEZE_QUEUE_MODE_ATOMIC);

/* ---- Moves ---- */

/* A request of a tag takes over one of a pool: it gives that tag back to the pool. */
static void a_request_moves_with_its_pool()
{
    auto queue = Queue::make({64, 0, 0, 0}, 1, 2);
    auto pool = Pool::make(*queue, 1);
    auto tag = queue->next_tag();
    {
        auto one = tag->enter(0), two = pool->enter(0);
        *one = std::move(*two);
        IS(pool->in_flight(nullptr, 0) == 1 && tag->enter(0));
    }
    IS(pool->in_flight(nullptr, 0) == 0);
}

/* A request and a pool move onto those of another queue, which has fewer slots: each ends in its own queue, on its own slot. */
static void what_moves_ends_in_its_own_queue()
{
    auto queue = Queue::make({64, 0, 0, 0}, 2, 1), other = Queue::make({64, 0, 0, 0}, 1, 1);
    auto pool = Pool::make(*queue, 1), others = Pool::make(*other, 1);
    {
        auto one = pool->enter(1), two = others->enter(0);
        *two = std::move(*one);
    }
    IS(pool->in_flight(nullptr, 0) == 0 && others->in_flight(nullptr, 0) == 0);
    IS(bool(pool->enter(1, 0ns)) && bool(others->enter(0, 0ns)));
    *others = std::move(*pool);
    IS(bool(other->next_tag()) && bool(others->enter(1, 0ns)));
}

/* ---- Threads ---- */

/* A tag ends here while its request ends on another thread. The last of the two gives the tag back, after the other one is done with it. */
static void a_tag_and_its_request_end_on_two_threads()
{
    auto queue = Queue::make({64, 0, 0, 0}, 1, 1);
    for (int i = 0; i < 500; i++) {
        std::thread ends;
        {
            auto tag = queue->next_tag();
            auto request = tag->enter(0);
            ends = std::thread([moved = std::move(*request)] { (void)moved.limits(); });
        }
        ends.join();
    }
    IS(bool(queue->next_tag()));
}

/* ---- Refusals ---- */

/* The destructor of a queue that is frozen 1,000 times, whose end is refused, closes its events and frees it. */
static void a_queue_whose_end_is_refused_is_freed()
{
    int event = -1;
    {
        auto queue = Queue::make({64, 0, 0, 0}, 1, 1);
        IS(freeze_queue_waits_open_events(queue->waits()) == 0);
        event = freeze_queue_waits_live_event(queue->waits());
        for (int i = 0; i < 1000; i++)
            IS(freeze_queue_waits_begin_freeze(queue->waits()) == FREEZE_QUEUE_DRAINED);
        IS(queue->end().error() == Error::depth_full && queue->freeze().error() == Error::depth_full);
        IS(fcntl(event, F_GETFD) != -1);
    }
    IS(fcntl(event, F_GETFD) == -1);
}

/* ---- Handles of the C headers ---- */

/* Makes an object without an initializer over memory of ones. The functions are apart, so that no compiler drops the ones. */
__attribute__((noinline)) static void fill(void *memory, std::size_t size) { std::memset(memory, 0xff, size); }
template <class Type> __attribute__((noinline)) static Type *made_at(void *memory) { return new (memory) Type; }

template <class Type> struct Plain {
    alignas(Type) unsigned char memory[sizeof(Type)];
    Type *operator()()
    {
        fill(memory, sizeof memory);
        return made_at<Type>(memory);
    }
};

template <class Handle> static void a_plain_handle_is_closed()
{
    Plain<Handle> plain;
    const Handle *handle = plain();
    unsigned char is_open;
    std::memcpy(&is_open, &handle->is_open, 1);
    IS(is_open == 0 && handle->at == nullptr);
    IS(handle->reserved.words[0] == nullptr && handle->reserved.words[1] == nullptr);
}

template <class Struct> static void a_plain_struct_is_zero()
{
    Plain<Struct> plain;
    const Struct *made = plain();
    for (void *word : made->opaque)
        IS(word == nullptr);
    IS(made->reserved.words[0] == nullptr && made->reserved.words[1] == nullptr);
}

int main()
{
    a_plain_handle_is_closed<freeze_queue>();
    a_plain_handle_is_closed<freeze_queue_tag>();
    a_plain_handle_is_closed<percpu_gate_control>();
    a_plain_handle_is_closed<percpu_gate_pass>();
    a_plain_struct_is_zero<freeze_queue_waits>();
    a_plain_struct_is_zero<freeze_queue_pool>();
    a_request_moves_with_its_pool();
    what_moves_ends_in_its_own_queue();
    a_tag_and_its_request_end_on_two_threads();
    a_queue_whose_end_is_refused_is_freed();
    std::printf("each field with its owner\n");
    return 0;
}
