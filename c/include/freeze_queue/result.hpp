/* Errors, results, limits and deadlines of the queue for C++17. A part of freeze_queue.hpp, which includes it. */
#ifndef FREEZE_QUEUE_RESULT_HPP
#define FREEZE_QUEUE_RESULT_HPP

#include "../freeze_queue_waits.h"

#include <chrono>
#include <cstdint>
#include <cstdio>
#include <cstdlib>
#include <limits>
#include <optional>
#include <ratio>
#include <utility>
#ifdef FREEZE_QUEUE_THROWS
#include <stdexcept>
#define FREEZE_QUEUE_FORM throwing
#else
#define FREEZE_QUEUE_FORM plain
#endif

namespace blkq {
inline namespace FREEZE_QUEUE_FORM { /* files of both forms may be linked; a value of one can't be passed to the other */

/* Why a call was refused: the numbers of freeze_queue.h. */
enum class Error : std::uint32_t {
    not_entered = FREEZE_QUEUE_NOT_ENTERED, /* of a try: the queue is frozen */
    depth_full = FREEZE_QUEUE_ERR_DEPTH_FULL,
    not_frozen = FREEZE_QUEUE_ERR_NOT_FROZEN,
    not_drained = FREEZE_QUEUE_ERR_NOT_DRAINED,
    tags_out = FREEZE_QUEUE_ERR_TAGS_OUT,
    worn_out = FREEZE_QUEUE_ERR_WORN_OUT,
    above_hardware = FREEZE_QUEUE_ERR_ABOVE_HARDWARE,
    chunk_too_large = FREEZE_QUEUE_ERR_CHUNK_TOO_LARGE,
    hardware_range = FREEZE_QUEUE_ERR_HARDWARE_RANGE,
    bad_physical = FREEZE_QUEUE_ERR_BAD_PHYSICAL,
    other_hardware = FREEZE_QUEUE_ERR_OTHER_HARDWARE,
    timed_out = FREEZE_QUEUE_ERR_TIMED_OUT,
    dying = FREEZE_QUEUE_ERR_DYING,
    closed = FREEZE_QUEUE_ERR_CLOSED,
    open = FREEZE_QUEUE_ERR_OPEN,
    bad_slot = FREEZE_QUEUE_ERR_BAD_SLOT,
    bad_size = FREEZE_QUEUE_ERR_BAD_SIZE,
    no_memory = FREEZE_QUEUE_ERR_NO_MEMORY,
    in_use = FREEZE_QUEUE_ERR_IN_USE,
    other_queue = FREEZE_QUEUE_ERR_OTHER_QUEUE,
    no_tag = FREEZE_QUEUE_ERR_NO_TAG,
    already_entered = FREEZE_QUEUE_ERR_ALREADY_ENTERED,
    tag_not_entered = FREEZE_QUEUE_ERR_TAG_NOT_ENTERED,
    bad_mode = FREEZE_QUEUE_ERR_BAD_MODE,
    bad_range = FREEZE_QUEUE_ERR_BAD_RANGE,
    tag_not_out = FREEZE_QUEUE_ERR_TAG_NOT_OUT,
    bad_deadline = FREEZE_QUEUE_ERR_BAD_DEADLINE,
    bad_return = FREEZE_QUEUE_ERR_BAD_RETURN,
    in_update = FREEZE_QUEUE_ERR_IN_UPDATE,
    no_event = FREEZE_QUEUE_ERR_NO_EVENT,
};

/* Returns a short text for an error. */
inline const char *text(Error error) noexcept { return freeze_queue_text(static_cast<freeze_queue_answer>(error)); }

#ifdef FREEZE_QUEUE_THROWS
/* What Result::value throws. */
class Refused : public std::runtime_error {
  public:
    explicit Refused(Error error) : std::runtime_error(text(error)), error_(error) {}
    Error error() const noexcept { return error_; }

  private:
    Error error_;
};
#endif

namespace internal {

/* Ends the program with a message if a precondition doesn't hold. */
inline void needs(bool holds, const char *misuse) noexcept
{
    if (holds)
        return;
    std::fprintf(stderr, "freeze_queue.hpp: %s\n", misuse);
    std::abort();
}

/* Throws if FREEZE_QUEUE_THROWS is defined, and otherwise ends the program with the error's text. */
[[noreturn]] inline void refuse(Error error)
{
#ifdef FREEZE_QUEUE_THROWS
    throw Refused(error);
#else
    needs(false, text(error));
    std::abort();
#endif
}

} // namespace internal

/* How a live queue counts. */
enum class Mode : std::uint32_t { slots = FREEZE_QUEUE_MODE_SLOTS, atomic = FREEZE_QUEUE_MODE_ATOMIC };

/* Limits, in sectors; 0 is the default of each, except hardware. */
using Limits = freeze_queue_limits;

/* A value, or the error that explains its absence. A Result without a value converts to false. Then * and -> end the program;
 * value() throws Refused if FREEZE_QUEUE_THROWS is defined, and otherwise ends the program too. */
template <class T> class [[nodiscard]] Result {
  public:
    Result(T value) noexcept : value_(std::move(value)) {}
    Result(Error error) noexcept : error_(error) {}
    explicit operator bool() const noexcept { return value_.has_value(); }
    T &operator*() noexcept { return *operator->(); }
    T *operator->() noexcept
    {
        internal::needs(value_.has_value(), "a Result without a value is used");
        return &*value_;
    }
    T &value() &
    {
        if (!value_)
            internal::refuse(error_);
        return *value_;
    }
    T value() && { return std::move(value()); }
    Error error() const noexcept { return error_; }

  private:
    std::optional<T> value_;
    Error error_ = Error::closed;
};

/* Success, or the error of a call that was refused. */
template <> class [[nodiscard]] Result<void> {
  public:
    Result() noexcept = default;
    Result(Error error) noexcept : error_(error) {}
    explicit operator bool() const noexcept { return !error_; }
    void value() const
    {
        if (error_)
            internal::refuse(*error_);
    }
    Error error() const noexcept { return error_.value_or(Error::closed); }

  private:
    std::optional<Error> error_;
};

namespace internal {

/* A duration in nanoseconds, rounded up. A negative duration and NaN are 0. The maximum is about 292 years. */
template <class Rep, class Period> std::int64_t nanoseconds(std::chrono::duration<Rep, Period> time) noexcept
{
    const long double exact = std::chrono::duration<long double, std::nano>(time).count();
    if (!(exact > 0))
        return 0;
    if (exact >= 0x1p63L)
        return std::numeric_limits<std::int64_t>::max();
    const auto whole = static_cast<std::int64_t>(exact);
    return whole + (static_cast<long double>(whole) < exact ? 1 : 0);
}

} // namespace internal

/* A deadline: none, a time of std::chrono::steady_clock, or a duration from now. Deadlines beyond about 292 years are shortened
 * to that. */
class Deadline {
  public:
    Deadline() noexcept = default;
    template <class Duration>
    Deadline(std::chrono::time_point<std::chrono::steady_clock, Duration> at) noexcept : has_(true)
    {
        const std::int64_t since = internal::nanoseconds(at.time_since_epoch());
        at_.tv_sec = static_cast<time_t>(since / 1000000000);
        at_.tv_nsec = static_cast<long>(since % 1000000000);
    }
    template <class Rep, class Period>
    Deadline(std::chrono::duration<Rep, Period> from_now) noexcept : has_(true)
    {
        at_ = freeze_queue_deadline(static_cast<std::uint64_t>(internal::nanoseconds(from_now)));
    }
    const timespec *get() const noexcept { return has_ ? &at_ : nullptr; }
    bool has_passed() const noexcept
    {
        const timespec now = freeze_queue_deadline(0);
        return has_ && (now.tv_sec != at_.tv_sec ? now.tv_sec > at_.tv_sec : now.tv_nsec >= at_.tv_nsec);
    }

  private:
    timespec at_{};
    bool has_ = false;
};

} // namespace FREEZE_QUEUE_FORM
} // namespace blkq
#endif
