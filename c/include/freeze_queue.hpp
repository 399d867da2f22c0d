/*
 * The queue, for C++17: owners that can be moved but not copied, requests and freezes that end with their scope, deadlines of
 * std::chrono, and a pool. It is header-only, over freeze_queue_pool.h. No proof covers it.
 *
 * A call that may be refused returns a Result: a value, or an Error with the number of the C library. The names in comments are
 * the errors of a call. No call throws, with one exception; if memory runs out a call returns Error::no_memory. The header
 * compiles without exceptions and without RTTI. The exception is value() of a Result, if a program defines FREEZE_QUEUE_THROWS
 * before it includes this header: auto tag = queue.next_tag().value(). Without that name value() of an error ends the program.
 *
 * Misuse that no Result can report ends the program with a message: for example, an owner is used that was moved from, or a
 * Result without a value, or a request is to leave on a slot that its queue doesn't have.
 *
 *     auto made = blkq::Queue::make({64, 0, 0, 0}, slots, tags);       (hardware, max, chunk, physical)
 *     if (!made)
 *         return made.error();
 *     auto tag = made->next_tag();                                             (one for each thread, or a Pool)
 *     if (!tag)
 *         return tag.error();
 *     {
 *         auto request = tag->enter(slot);                                     (waits while the queue is frozen)
 *         if (!request)
 *             return request.error();
 *         const auto submits = [](auto at, auto sectors) { .. };
 *         if (auto cut = request->each_piece(start, count, submits); !cut)     (cuts all pieces by the same limits)
 *             return cut.error();
 *     }                                                                        (here the request leaves)
 *     if (auto set = made->update([](auto &limits) { limits.max = 8; }); !set) (loses no other thread's change)
 *         return set.error();
 *
 * A Queue must outlive its tags, pools, requests and freezes. Its destructor marks it dying, and waits until each tag is back. A
 * move assignment first takes the new value, and then ends the old value as its destructor does.
 */
#ifndef FREEZE_QUEUE_HPP
#define FREEZE_QUEUE_HPP

#include "freeze_queue/result.hpp"
#include "freeze_queue_pool.h"

#include <atomic>
#include <cstdint>
#include <memory>
#include <new>
#include <type_traits>
#include <utility>

namespace blkq {
inline namespace FREEZE_QUEUE_FORM {

namespace internal {

inline Result<void> done(freeze_queue_answer answer) noexcept
{
    return freeze_queue_is_refused(answer) ? Result<void>(static_cast<Error>(answer)) : Result<void>();
}

/* Ends the program if a call of a destructor is refused. Only misuse leads there, and no Result can report it. */
inline void ends(freeze_queue_answer answer) noexcept
{
    needs(!freeze_queue_is_refused(answer), freeze_queue_text(answer));
}

/* The queue and its waits, which stay at one address for the queue's life. */
struct Core {
    freeze_queue queue{};
    freeze_queue_waits waits{};
    std::uint32_t slots = 0;
    bool has_ended = false;
};

/* A tag, shared by its Tag and its Request: the last of the two gives it back. */
struct alignas(128) Handle {
    explicit Handle(Core *of) noexcept : core(of) {}
    void drop() noexcept
    {
        if (owners.fetch_sub(1, std::memory_order_acq_rel) != 1)
            return;
        ends(freeze_queue_waits_give_tag_back(&core->waits, &tag));
        delete this;
    }
    freeze_queue_tag tag{};
    Core *core;
    std::atomic<std::uint32_t> owners{1};
};

} // namespace internal

class Tag;
class Pool;

/* A request that has entered. Its destructor leaves, and gives the tag back to the pool that it came from. A request may move to
 * another thread, and outlive its Tag. A call of a request that was moved from ends the program. */
class [[nodiscard]] Request {
  public:
    Request(Request &&other) noexcept
        : core_(other.core_), tag_(std::exchange(other.tag_, nullptr)), handle_(other.handle_), pool_(other.pool_),
          slot_(other.slot_)
    {
    }
    Request &operator=(Request &&other) noexcept
    {
        Request moved(std::move(other)); /* the old value ends with it */
        std::swap(core_, moved.core_);
        std::swap(tag_, moved.tag_);
        std::swap(handle_, moved.handle_);
        std::swap(pool_, moved.pool_);
        std::swap(slot_, moved.slot_);
        return *this;
    }
    ~Request()
    {
        if (tag_ == nullptr)
            return;
        internal::ends(freeze_queue_waits_leave(&core_->waits, tag_, slot_));
        gives_back(tag_);
    }

    /* The limits in force, which stay the same until the request leaves. */
    Limits limits() const noexcept
    {
        Limits limits{};
        internal::needs(freeze_queue_limits_of(entered(), &limits) == FREEZE_QUEUE_OK, "limits of a request that isn't in");
        return limits;
    }

    /* Cuts count sectors from start on, and calls a function with the start and the sectors of each piece: bad_range. */
    template <class Function>
    Result<void> each_piece(std::uint64_t start, std::uint32_t count, Function &&function) const
    {
        const Limits limits = this->limits();
        for (std::uint32_t piece = 0; count > 0; start += piece, count -= piece) {
            const freeze_queue_answer answer = freeze_queue_first_piece(&limits, start, count, &piece);
            if (answer != FREEZE_QUEUE_OK)
                return static_cast<Error>(answer);
            function(start, piece);
        }
        return {};
    }

    /* Sets the slot that the destructor leaves on; at first it is the slot on which the request entered. For speed, a thread that
     * completes another thread's request sets its own slot. A slot that the queue doesn't have ends the program. */
    void leaves_on(std::uint32_t slot) noexcept
    {
        (void)entered();
        internal::needs(slot < core_->slots, "a request is to leave on a slot that its queue doesn't have");
        slot_ = slot;
    }

  private:
    friend class Tag;
    friend class Pool;
    Request(internal::Core *core, freeze_queue_tag *tag, internal::Handle *handle, freeze_queue_pool *pool,
            std::uint32_t slot) noexcept
        : core_(core), tag_(tag), handle_(handle), pool_(pool), slot_(slot)
    {
    }
    freeze_queue_tag *entered() const noexcept
    {
        internal::needs(tag_ != nullptr, "a request that has left, or was moved from, is used");
        return tag_;
    }
    void gives_back(freeze_queue_tag *left) noexcept
    {
        if (handle_ != nullptr)
            handle_->drop();
        else
            internal::ends(freeze_queue_pool_give(pool_, left));
    }
    internal::Core *core_;
    freeze_queue_tag *tag_;
    internal::Handle *handle_; /* if a Tag entered; null if a Pool did */
    freeze_queue_pool *pool_;
    std::uint32_t slot_;
};

/* A tag of one thread. The tag goes back to its queue when this owner is destroyed, or its request if that is later. */
class [[nodiscard]] Tag {
  public:
    Tag(Tag &&other) noexcept : handle_(std::exchange(other.handle_, nullptr)) {}
    Tag &operator=(Tag &&other) noexcept
    {
        Tag moved(std::move(other)); /* the old value ends with it */
        std::swap(handle_, moved.handle_);
        return *this;
    }
    ~Tag()
    {
        if (handle_ != nullptr)
            handle_->drop();
    }

    /* Enters, and waits while the queue is frozen: bad_slot, already_entered, timed_out, dying. */
    Result<Request> enter(std::uint32_t slot, const Deadline &deadline = {}) noexcept
    {
        return entered(freeze_queue_waits_enter(&handle()->core->waits, &handle_->tag, slot, deadline.get()), slot);
    }
    /* Enters unless the queue is frozen: not_entered, bad_slot, already_entered, dying. */
    Result<Request> try_enter(std::uint32_t slot) noexcept
    {
        return entered(freeze_queue_waits_try_enter(&handle()->core->waits, &handle_->tag, slot), slot);
    }

  private:
    friend class Queue;
    explicit Tag(internal::Handle *handle) noexcept : handle_(handle) {}
    internal::Handle *handle() const noexcept
    {
        internal::needs(handle_ != nullptr, "a tag that was moved from is used");
        return handle_;
    }
    Result<Request> entered(freeze_queue_answer answer, std::uint32_t slot) noexcept
    {
        if (answer != FREEZE_QUEUE_OK)
            return static_cast<Error>(answer);
        handle_->owners.fetch_add(1, std::memory_order_relaxed);
        return Request(handle_->core, &handle_->tag, handle_, nullptr, slot);
    }
    internal::Handle *handle_;
};

/* A freeze of a drained queue. Its destructor thaws the queue, unless Queue::end has removed it. */
class [[nodiscard]] Freeze {
  public:
    Freeze(Freeze &&other) noexcept : core_(std::exchange(other.core_, nullptr)) {}
    Freeze &operator=(Freeze &&other) noexcept
    {
        Freeze moved(std::move(other)); /* the old value ends with it */
        std::swap(core_, moved.core_);
        return *this;
    }
    ~Freeze()
    {
        if (core_ != nullptr && !core_->has_ended)
            internal::ends(freeze_queue_waits_thaw(&core_->waits));
    }

    /* Sets the limits for the requests that enter after the thaw: the refusals of limits. */
    Result<void> set(const Limits &limits) noexcept
    {
        internal::needs(core_ && !core_->has_ended, "a freeze that was moved from, or whose queue has ended, is used");
        return internal::done(freeze_queue_waits_set(&core_->waits, &limits));
    }

  private:
    friend class Queue;
    explicit Freeze(internal::Core *core) noexcept : core_(core) {}
    internal::Core *core_;
};

/* A queue. Its destructor ends it, and waits until each tag is back, so destroy tags, requests and pools before. */
class [[nodiscard]] Queue {
  public:
    /* Makes a live queue of 1 to 512 slots and 1 to 1,023 tags: hardware_range, above_hardware, chunk_too_large, bad_physical,
     * bad_size, no_memory. */
    static Result<Queue> make(const Limits &limits, std::uint32_t slots, std::uint32_t tags) noexcept
    {
        std::unique_ptr<internal::Core> core(new (std::nothrow) internal::Core);
        if (!core)
            return Error::no_memory;
        const freeze_queue_answer answer = freeze_queue_new(&core->queue, &limits, slots, tags);
        if (answer != FREEZE_QUEUE_OK)
            return static_cast<Error>(answer);
        const freeze_queue_answer made = freeze_queue_waits_init(&core->waits, &core->queue);
        if (made != FREEZE_QUEUE_OK) {
            freeze_queue_free(&core->queue);
            return static_cast<Error>(made);
        }
        core->slots = slots;
        return Queue(std::move(core));
    }
    Queue(Queue &&) noexcept = default;
    Queue &operator=(Queue &&other) noexcept
    {
        Queue moved(std::move(other)); /* the old value ends with it */
        std::swap(core_, moved.core_);
        return *this;
    }
    ~Queue()
    {
        if (!core_ || core_->has_ended || end())
            return;
        freeze_queue_waits_destroy(&core_->waits);
        freeze_queue_free(&core_->queue);
    }

    /* Gives a tag to a thread: no_tag, no_memory. */
    Result<Tag> next_tag() noexcept
    {
        std::unique_ptr<internal::Handle> handle(new (std::nothrow) internal::Handle(core()));
        const freeze_queue_answer answer =
            handle ? freeze_queue_waits_next_tag(waits(), &handle->tag) : FREEZE_QUEUE_ERR_NO_MEMORY;
        if (answer != FREEZE_QUEUE_OK)
            return static_cast<Error>(answer);
        return Tag(handle.release());
    }

    /* Freezes the queue, and waits for the drain: depth_full, worn_out, timed_out, after which its own freeze is thawed. */
    Result<Freeze> freeze(const Deadline &deadline = {}) noexcept
    {
        const freeze_queue_answer answer = freeze_queue_waits_freeze(waits(), deadline.get());
        if (answer != FREEZE_QUEUE_OK)
            return static_cast<Error>(answer);
        return Freeze(core());
    }

    /* Sets all limits under a freeze, also in a dying queue: the refusals of limits, depth_full, worn_out, timed_out, and
     * in_update if the function of an update calls it. */
    Result<void> change(const Limits &limits, const Deadline &deadline = {}) noexcept
    {
        return internal::done(freeze_queue_waits_change(waits(), &limits, deadline.get()));
    }

    /* Calls a function that changes the limits, under one freeze: no other thread's change comes between. The errors are those of
     * change. The function may read limits() and depth() of the queue. If it calls set, change, update or end, that call returns
     * in_update. It must not wait to enter, and thaw only a freeze that it began. An exception that leaves it ends the
     * program. */
    template <class Function> Result<void> update(Function &&function, const Deadline &deadline = {})
    {
        using Called = std::remove_reference_t<Function>;
        const auto calls = [](freeze_queue_limits *limits, void *called) noexcept -> std::uint32_t {
            (*static_cast<Called *>(called))(*limits);
            return FREEZE_QUEUE_OK;
        };
        void *called = const_cast<void *>(static_cast<const void *>(std::addressof(function)));
        return internal::done(freeze_queue_waits_update(waits(), calls, called, deadline.get()));
    }

    /* Returns the limits in force. */
    Limits limits() noexcept
    {
        Limits limits{};
        internal::ends(freeze_queue_waits_limits(waits(), &limits));
        return limits;
    }

    /* Returns the number of freezes that aren't thawed yet. */
    std::uint32_t depth() noexcept
    {
        std::uint32_t depth = 0;
        internal::ends(freeze_queue_waits_depth(waits(), &depth));
        return depth;
    }

    Result<void> mode(Mode mode) noexcept
    {
        return internal::done(freeze_queue_waits_mode(waits(), static_cast<std::uint32_t>(mode)));
    }

    /* Marks the queue dying forever: calls that wait to enter, and later calls that enter, return dying. Freezes and changes work
     * as before. A call of Pool::enter that waits for a tag goes on waiting until a tag is back or Pool::end is called.
     * depth_full, worn_out. */
    Result<void> mark_dying() noexcept { return internal::done(freeze_queue_waits_mark_dying(waits())); }

    /* Marks the queue dying, and waits until each tag is back and no call sleeps: timed_out, depth_full, worn_out, closed,
     * in_update, no_memory. End pools first. Once this is called, other threads may begin calls of the queue only while they have
     * a tag; no thread may destroy a Freeze meanwhile. Before or after is fine: a Freeze that outlives the end has nothing to
     * thaw.
     *
     * After it succeeds, only destructors may be called: another end returns closed, and any other call ends the program. After
     * timed_out the queue stays dying, and may be used and ended again. */
    Result<void> end(const Deadline &deadline = {}) noexcept
    {
        freeze_queue_final last;
        if (core_ && core_->has_ended)
            return Error::closed;
        const freeze_queue_answer answer = freeze_queue_waits_end(waits(), &last, deadline.get());
        core_->has_ended = answer == FREEZE_QUEUE_OK;
        return internal::done(answer);
    }

    /* Opens the events for poll, before other threads use the queue: no_event, open. The other calls return the descriptors, or
     * -1: live_event is readable while the queue is live or dying, drained_event while it is drained. Never read them. */
    Result<void> open_events() noexcept { return internal::done(freeze_queue_waits_open_events(waits())); }
    int live_event() noexcept { return freeze_queue_waits_live_event(waits()); }
    int drained_event() noexcept { return freeze_queue_waits_drained_event(waits()); }

    /* Returns the waits, for calls of the C header. */
    freeze_queue_waits *waits() noexcept { return &core()->waits; }

  private:
    friend class Pool;
    internal::Core *core() noexcept
    {
        internal::needs(core_ && !core_->has_ended, "a queue that was moved from, or has ended, is used");
        return core_.get();
    }
    explicit Queue(std::unique_ptr<internal::Core> core) noexcept : core_(std::move(core)) {}
    std::unique_ptr<internal::Core> core_;
};

} // namespace FREEZE_QUEUE_FORM
} // namespace blkq

#include "freeze_queue/pool.hpp"
#endif
