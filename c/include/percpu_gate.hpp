/*
 * The gate, for C++17: owners that can be moved but not copied, and references that are put at the end of their scope. It is
 * header-only, over percpu_gate.h. No proof covers it.
 *
 * No call throws. A call that may be refused returns a Result: a value, or an Error with the number of the C library. A gate has
 * a function, which runs once for each kill, in the call that drops the last reference. The function frees what the gate guards,
 * or notifies a thread that waits. It may run on any thread that puts, tries or kills.
 *
 *     auto gate = percpu_gate::Gate::make(slots, passes, [](void *device) { free_device(device); }, device);
 *     if (!gate)
 *         return gate.error();
 *     auto pass = gate->next_pass();                                           (one for each thread)
 *     if (!pass)
 *         return pass.error();
 *     if (auto reference = pass->try_get_live(slot))
 *         send(device);                                                        (the reference is put after this)
 *     if (auto killed = gate->kill(); !killed)
 *         return killed.error();
 *
 * A gate must outlive its passes, and a pass its references. A move assignment first takes the new value, and then ends the old
 * value as its destructor does. A call of an owner that was moved from ends the program with a message.
 */
#ifndef PERCPU_GATE_HPP
#define PERCPU_GATE_HPP

#include "percpu_gate.h"

#include <cstdint>
#include <cstdio>
#include <cstdlib>
#include <memory>
#include <new>
#include <optional>
#include <utility>

namespace percpu_gate {

/* Why a call was refused: the numbers of percpu_gate.h. */
enum class Error : std::uint32_t {
    not_given = PERCPU_GATE_NOT_GIVEN, /* of a try: the gate was killed, or is at zero */
    already_dead = PERCPU_GATE_ERR_ALREADY_DEAD,
    not_dead = PERCPU_GATE_ERR_NOT_DEAD,
    not_zero = PERCPU_GATE_ERR_NOT_ZERO,
    mid_switch = PERCPU_GATE_ERR_MID_SWITCH,
    worn_out = PERCPU_GATE_ERR_WORN_OUT,
    passes_out = PERCPU_GATE_ERR_PASSES_OUT,
    closed = PERCPU_GATE_ERR_CLOSED,
    open = PERCPU_GATE_ERR_OPEN,
    bad_slot = PERCPU_GATE_ERR_BAD_SLOT,
    bad_size = PERCPU_GATE_ERR_BAD_SIZE,
    no_memory = PERCPU_GATE_ERR_NO_MEMORY,
    in_use = PERCPU_GATE_ERR_IN_USE,
    other_gate = PERCPU_GATE_ERR_OTHER_GATE,
    no_pass = PERCPU_GATE_ERR_NO_PASS,
    held_full = PERCPU_GATE_ERR_HELD_FULL,
    not_held = PERCPU_GATE_ERR_NOT_HELD,
    still_held = PERCPU_GATE_ERR_STILL_HELD,
    bad_amount = PERCPU_GATE_ERR_BAD_AMOUNT,
    bad_word = PERCPU_GATE_ERR_BAD_WORD,
    bad_step = PERCPU_GATE_ERR_BAD_STEP,
};

/* Returns a short text for an error. */
inline const char *text(Error error) noexcept { return percpu_gate_text(static_cast<percpu_gate_answer>(error)); }

/* A value, or the error that explains its absence. A Result without a value converts to false; * and -> then end the program. */
template <class T> class [[nodiscard]] Result {
  public:
    Result(T value) noexcept : value_(std::move(value)) {}
    Result(Error error) noexcept : error_(error) {}
    explicit operator bool() const noexcept { return value_.has_value(); }
    T &operator*() noexcept { return value_.value(); }
    T *operator->() noexcept { return &value_.value(); }
    Error error() const noexcept { return error_; }

  private:
    std::optional<T> value_;
    Error error_ = Error::closed;
};

/* Success, or the error of a call that was refused. */
template <> class [[nodiscard]] Result<void> {
  public:
    Result() noexcept = default;
    Result(Error error) noexcept : error_(error) {}
    explicit operator bool() const noexcept { return !error_; }
    Error error() const noexcept { return error_.value_or(Error::closed); }

  private:
    std::optional<Error> error_;
};

namespace internal {

/* The control, and the function for the release, which stay at one address for the gate's life. */
struct Core {
    percpu_gate_control control{};
    void (*on_last)(void *) = nullptr;
    void *argument = nullptr;
};

struct alignas(128) Handle {
    percpu_gate_pass pass{};
    Core *core = nullptr;
};

/* Ends the program with a message unless a condition holds. */
inline void needs(bool holds, const char *misuse) noexcept
{
    if (holds)
        return;
    std::fprintf(stderr, "percpu_gate: %s\n", misuse);
    std::abort();
}

/* Calls the function for the release if this answer is LAST or NOT_GIVEN_LAST. */
inline percpu_gate_answer released(Core &core, percpu_gate_answer answer)
{
    if (percpu_gate_is_last(answer) && core.on_last != nullptr)
        core.on_last(core.argument);
    return answer;
}

inline Result<void> done(percpu_gate_answer answer) noexcept
{
    return answer >= 16 ? Result<void>(static_cast<Error>(answer)) : Result<void>();
}

} // namespace internal

/* A reference. Its destructor puts it. */
class [[nodiscard]] Reference {
  public:
    Reference(Reference &&other) noexcept : handle_(std::exchange(other.handle_, nullptr)), slot_(other.slot_) {}
    Reference &operator=(Reference &&other) noexcept
    {
        Reference moved(std::move(other)); /* the old value ends with it */
        std::swap(handle_, moved.handle_);
        std::swap(slot_, moved.slot_);
        return *this;
    }
    ~Reference()
    {
        if (handle_ != nullptr)
            internal::released(*handle_->core, percpu_gate_put(&handle_->pass, slot_, 1));
    }

    /* Returns the guarded word k, which stays the same until the reference is put: bad_word. */
    Result<std::uint64_t> word(std::uint32_t k) const noexcept
    {
        std::uint64_t word = 0;
        internal::needs(handle_ != nullptr, "a reference that was moved from is used");
        const percpu_gate_answer answer = percpu_gate_word(&handle_->pass, k, &word);
        if (answer != PERCPU_GATE_OK)
            return static_cast<Error>(answer);
        return word;
    }

  private:
    friend class Pass;
    Reference(internal::Handle *handle, std::uint32_t slot) noexcept : handle_(handle), slot_(slot) {}
    internal::Handle *handle_;
    std::uint32_t slot_;
};

/* A pass of one thread. Gate::retire ends it; its destructor only frees it, and the gate counts it as out forever. */
class [[nodiscard]] Pass {
  public:
    Pass(Pass &&) noexcept = default;
    Pass &operator=(Pass &&other) noexcept
    {
        Pass moved(std::move(other)); /* the old value ends with it */
        std::swap(handle_, moved.handle_);
        return *this;
    }
    ~Pass()
    {
        if (handle_)
            percpu_gate_free_pass(&handle_->pass);
    }

    /* Takes a reference unless the gate was killed: not_given, bad_slot, held_full. */
    Result<Reference> try_get_live(std::uint32_t slot) { return given(percpu_gate_try_get_live(pass(), slot), slot); }
    /* Takes a reference unless the gate has reached zero: not_given, bad_slot, held_full. */
    Result<Reference> try_get(std::uint32_t slot) { return given(percpu_gate_try_get(pass(), slot), slot); }
    bool is_dying() const noexcept { return percpu_gate_is_dying(pass()); }
    bool is_zero() const noexcept { return percpu_gate_is_zero(pass()); }

  private:
    friend class Gate;
    explicit Pass(std::unique_ptr<internal::Handle> handle) noexcept : handle_(std::move(handle)) {}
    percpu_gate_pass *pass() const noexcept
    {
        internal::needs(handle_ != nullptr, "a pass that was moved from is used");
        return &handle_->pass;
    }
    Result<Reference> given(percpu_gate_answer answer, std::uint32_t slot)
    {
        if (answer == PERCPU_GATE_OK)
            return Reference(handle_.get(), slot);
        internal::released(*handle_->core, answer);
        return answer < 16 ? Error::not_given : static_cast<Error>(answer);
    }
    std::unique_ptr<internal::Handle> handle_;
};

/* A gate. Its destructor frees the control. */
class [[nodiscard]] Gate {
  public:
    /* Makes a gate of 1 to 512 slots and 1 to 1,024 passes, with a function for the release: bad_size, no_memory. */
    static Result<Gate> make(std::uint32_t slots, std::uint32_t passes, void (*on_last)(void *), void *argument = nullptr,
                             std::uint32_t start = PERCPU_GATE_START_SLOTS) noexcept
    {
        const std::uint64_t words[PERCPU_GATE_WORD_COUNT] = {};
        std::unique_ptr<internal::Core> core(new (std::nothrow) internal::Core);
        if (!core)
            return Error::no_memory;
        core->on_last = on_last;
        core->argument = argument;
        const percpu_gate_answer answer = percpu_gate_new(&core->control, slots, passes, start, words);
        if (answer != PERCPU_GATE_OK)
            return static_cast<Error>(answer);
        return Gate(std::move(core));
    }
    Gate(Gate &&) noexcept = default;
    Gate &operator=(Gate &&other) noexcept
    {
        Gate moved(std::move(other)); /* the old value ends with it */
        std::swap(core_, moved.core_);
        return *this;
    }
    ~Gate()
    {
        if (core_)
            percpu_gate_free_control(&core_->control);
    }

    /* Gives a pass to a thread: no_pass, no_memory. */
    Result<Pass> next_pass() noexcept
    {
        std::unique_ptr<internal::Handle> handle(new (std::nothrow) internal::Handle);
        if (!handle)
            return Error::no_memory;
        const percpu_gate_answer answer = percpu_gate_next_pass(control(), &handle->pass);
        if (answer != PERCPU_GATE_OK)
            return static_cast<Error>(answer);
        handle->core = core_.get();
        return Pass(std::move(handle));
    }
    /* Ends a pass that holds nothing: closed, other_gate, still_held. */
    Result<void> retire(Pass &pass) noexcept
    {
        return internal::done(percpu_gate_retire(control(), pass.pass()));
    }
    /* Kills the gate: already_dead, mid_switch, worn_out. */
    Result<void> kill() { return internal::done(internal::released(core(), percpu_gate_kill(control()))); }
    /* Revives a dead gate that has reached zero: not_dead, not_zero, mid_switch. */
    Result<void> reinit() noexcept { return internal::done(percpu_gate_reinit(control())); }
    bool is_zero() const noexcept { return percpu_gate_control_is_zero(&core().control); }
    /* Stores the guarded word k of a gate that is dead and at zero: bad_word, not_dead, not_zero, mid_switch. */
    Result<void> store_word(std::uint32_t k, std::uint64_t word) noexcept
    {
        return internal::done(percpu_gate_store_word(control(), k, word));
    }
    /* The control, for calls of the C header. */
    percpu_gate_control *control() noexcept { return &core().control; }

  private:
    explicit Gate(std::unique_ptr<internal::Core> core) noexcept : core_(std::move(core)) {}
    internal::Core &core() const noexcept
    {
        internal::needs(core_ != nullptr, "a gate that was moved from is used");
        return *core_;
    }
    std::unique_ptr<internal::Core> core_;
};

} // namespace percpu_gate
#endif
