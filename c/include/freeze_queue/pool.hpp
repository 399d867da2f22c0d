/* The pool of a queue's tags for C++17. A part of freeze_queue.hpp, which includes it. */
#ifndef FREEZE_QUEUE_HPP
#error "include freeze_queue.hpp"
#endif
#ifndef FREEZE_QUEUE_POOL_HPP
#define FREEZE_QUEUE_POOL_HPP

namespace blkq {
inline namespace FREEZE_QUEUE_FORM {

/* A pool of a queue's tags, for requests that end on other threads. Its destructor ends it, and waits until each tag is back. No
 * thread may be taking tags when it runs. */
class [[nodiscard]] Pool {
  public:
    /* Makes a pool of 1 to 1,023 tags of the queue: bad_size, no_tag, no_memory. */
    static Result<Pool> make(Queue &queue, std::uint32_t tags) noexcept
    {
        freeze_queue_pool *made = freeze_queue_pool_new();
        if (made == nullptr)
            return Error::no_memory;
        internal::Core *core = queue.core();
        const freeze_queue_answer answer = freeze_queue_pool_fill(made, &core->waits, tags);
        if (answer == FREEZE_QUEUE_OK)
            return Pool(core, made);
        freeze_queue_pool_free(made);
        return static_cast<Error>(answer);
    }
    Pool(Pool &&other) noexcept : core_(other.core_), pool_(std::exchange(other.pool_, nullptr)) {}
    Pool &operator=(Pool &&other) noexcept
    {
        Pool moved(std::move(other)); /* the old value ends with it */
        std::swap(core_, moved.core_);
        std::swap(pool_, moved.pool_);
        return *this;
    }
    ~Pool()
    {
        if (pool_ == nullptr)
            return;
        const freeze_queue_answer answer = freeze_queue_pool_end(pool_, nullptr);
        if (answer != FREEZE_QUEUE_ERR_CLOSED) /* it hadn't ended */
            internal::ends(answer);
        freeze_queue_pool_free(pool_);
    }

    /* Waits until each tag is back and no call waits for a tag, and gives the tags back to the queue: timed_out, in_use. Mark the
     * queue dying first: otherwise a request may keep its tag while it waits for a thaw. Calls that wait for a tag meanwhile, and
     * later calls that enter, return dying, or closed if the queue isn't dying. After timed_out the pool stays usable. A second
     * end returns closed. */
    Result<void> end(const Deadline &deadline = {}) noexcept
    {
        return internal::done(freeze_queue_pool_end(pool(), deadline.get()));
    }

    /* Waits for a tag, and enters with it, which waits while the queue is frozen: timed_out, dying, bad_slot, closed. */
    Result<Request> enter(std::uint32_t slot, const Deadline &deadline = {}) noexcept
    {
        freeze_queue_tag *tag = nullptr;
        const freeze_queue_answer answer = freeze_queue_pool_take_waiting(pool(), slot, deadline.get(), &tag);
        if (answer != FREEZE_QUEUE_OK)
            return without_a_tag(static_cast<Error>(answer));
        return entered(freeze_queue_waits_enter(&core_->waits, tag, slot, deadline.get()), tag, slot);
    }
    /* Enters if the pool has a tag and the queue isn't frozen: not_entered if it is frozen, no_tag, dying, bad_slot, closed.
     * After no_tag try again once the event is readable: a request has ended, or the pool ends. */
    Result<Request> try_enter(std::uint32_t slot) noexcept
    {
        const timespec passed{};
        freeze_queue_tag *tag = nullptr;
        const freeze_queue_answer answer = freeze_queue_pool_take_waiting(pool(), slot, &passed, &tag);
        if (answer != FREEZE_QUEUE_OK)
            return without_a_tag(answer == FREEZE_QUEUE_ERR_TIMED_OUT ? Error::no_tag : static_cast<Error>(answer));
        return entered(freeze_queue_waits_try_enter(&core_->waits, tag, slot), tag, slot);
    }
    /* Starts or stops noting when each tag is taken. */
    void watch(bool watched) noexcept { freeze_queue_pool_watch(pool(), watched); }
    /* Opens the event for poll: no_event, open, closed. The second call returns its descriptor, or -1 if it isn't open or the
     * pool has ended. Never read it. */
    Result<void> open_event() noexcept { return internal::done(freeze_queue_pool_open_event(pool())); }
    int event() const noexcept { return freeze_queue_pool_event(pool()); }
    /* Writes the tags that are out into a list of `room` entries. Returns the number of tags that are out, which may exceed `room`. */
    std::uint32_t in_flight(freeze_queue_taken *list, std::uint32_t room) noexcept
    {
        return freeze_queue_pool_in_flight(pool(), list, room);
    }

  private:
    freeze_queue_pool *pool() const noexcept
    {
        internal::needs(pool_ != nullptr, "a pool that was moved from is used");
        return pool_;
    }
    Pool(internal::Core *core, freeze_queue_pool *pool) noexcept : core_(core), pool_(pool) {}
    Error without_a_tag(Error error) noexcept { return freeze_queue_waits_is_dying(&core_->waits) ? Error::dying : error; }
    Result<Request> entered(freeze_queue_answer answer, freeze_queue_tag *tag, std::uint32_t slot) noexcept
    {
        if (answer == FREEZE_QUEUE_OK)
            return Request(core_, tag, nullptr, pool_, slot);
        internal::ends(freeze_queue_pool_give(pool_, tag));
        return static_cast<Error>(answer);
    }
    internal::Core *core_;
    freeze_queue_pool *pool_;
};

} // namespace FREEZE_QUEUE_FORM
} // namespace blkq
#endif
