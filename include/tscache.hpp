/// tscache.hpp: the timestamp cache for C++17, over tscache.h, which says what each call answers.
///
///     tscache::Config config;
///     config.low_water = {5};                          // the start of the lease
///     tscache::Cache cache = tscache::Cache::open(config).value();
///     tscache::Value read = {{20}, reader};            // sixteen bytes of a transaction
///     // [a, c) was read at 20. Where it is not remembered `value` throws, so it is not answered.
///     cache.add(tscache::Span::range("a", "c"), read, {20}).value();
///     auto write = cache.earliest_write(tscache::Span::point("b"), {15}, writer);
///     if (write.error() == tscache::Error::NoTime) return;
///     tscache::Time at = write.value();                // 20.1
///
/// Calls answer a `Result`, and throw nothing. An Add of a seat is refused as busy in the course of
/// things and waits for nobody, while a throw takes memory, and in many programs a lock that all
/// threads share. Stores that are built without exceptions use this header too. A refusal that is
/// passed over fails closed: there is no way to an answer but `value`, which throws `Refusal` where
/// there is none, and ends a program that is built without exceptions. The compiler warns where a
/// program drops a `Result`, or never looks at one that it keeps. A `Result` does not convert to
/// bool, since that of `may_write` would be true wherever it was answered. It has no `value_or`,
/// which would make up a time.
///
/// A `Cache`, a `Shared` and a `Seat` own what they name, and free it at their end. They move and
/// do not copy. One that was moved from, or that begins as `Cache()` does, owns nothing: each call
/// answers `Error::Closed`. They may go to another thread, and are used by one at a time, by the
/// rules of tscache.h; different ones may be used at once. Each call writes to its owner, so no
/// call is const, and owners lie 128 bytes apart.
///
/// Keys are `std::string_view`, and no call keeps one. An Add and a lookup of a span copy no key.
/// A batch, and a question of several spans or of a range, lay their keys side by side: on the
/// stack up to eight spans and 1,024 bytes, and else in memory that they free before they return.
/// Beyond that memory is taken for the bytes of a summary and of a text, and for the message of a
/// `Refusal`. Where it is refused they answer `Error::NoMemory`, and nothing was added.
#ifndef TSCACHE_HPP
#define TSCACHE_HPP

#include "tscache.h"

#if __cplusplus < 201703L
#error "tscache.hpp needs C++17"
#endif

#include <algorithm>
#include <array>
#include <chrono>
#include <cstddef>
#include <cstdint>
#include <cstdio>
#include <cstdlib>
#include <exception>
#include <initializer_list>
#include <iterator>
#include <memory>
#include <new>
#include <optional>
#include <stdexcept>
#include <string>
#include <string_view>
#include <thread>
#include <type_traits>
#include <utility>

namespace tscache {

/// Why a call was refused. A call that is refused adds nothing. tscache.h explains each of them.
enum class Error : std::uint32_t {
    None = TSC_OK, ///< it was not refused
    Closed = TSC_CLOSED,
    Time = TSC_TIME,
    Ends = TSC_ENDS,
    KeyTooLong = TSC_KEY_TOO_LONG,
    Inverted = TSC_INVERTED,
    TooLarge = TSC_TOO_LARGE,
    PageSize = TSC_PAGE_SIZE,
    MinPages = TSC_MIN_PAGES,
    Retention = TSC_RETENTION,
    NoMemory = TSC_NO_MEMORY,
    Seats = TSC_SEATS,
    StillOut = TSC_STILL_OUT,
    Busy = TSC_BUSY, ///< let other threads run, and try again
    Full = TSC_FULL,
    Refused = TSC_REFUSED, ///< of `replay` and `check`: `Result::why` has the text
    NoTime = TSC_NO_TIME,
    SummaryVersion = TSC_SUMMARY_VERSION,
    SummaryLength = TSC_SUMMARY_LENGTH,
    SummaryChecksum = TSC_SUMMARY_CHECKSUM,
    SummaryForm = TSC_SUMMARY_FORM,
    Tries = TSC_TRIES,
    Stripes = TSC_STRIPES,
    Bounds = TSC_BOUNDS,
};

/// What a refusal says. It stands in the program for good.
[[nodiscard]] inline const char *text(Error error) noexcept
{
    return tsc_text(static_cast<std::uint32_t>(error));
}

/// What `Result::value` throws where a call was refused.
class Refusal : public std::runtime_error {
public:
    Refusal(Error error, const std::string &why) : std::runtime_error(why), error_(error) {}
    [[nodiscard]] Error error() const noexcept { return error_; }

private:
    Error error_;
};

/// What a call answers, or why it was refused.
template <class T> class [[nodiscard, gnu::warn_unused]] Result {
public:
    Result(T value) noexcept : value_(std::move(value)) {}
    Result(Error error) noexcept : error_(error) {}

    /// Text that comes with a refusal.
    Result(Error error, T why) noexcept : error_(error), value_(std::move(why)) {}

    [[nodiscard]] bool ok() const noexcept { return error_ == Error::None; }
    [[nodiscard]] Error error() const noexcept { return error_; }

    /// What the refusal says. A text that `replay` or `check` refused has its own.
    [[nodiscard]] std::string_view why() const noexcept
    {
        if constexpr (std::is_same_v<T, std::string>) {
            if (error_ == Error::Refused)
                return value_;
        }
        return text(error_);
    }

    /// The answer. Where the call was refused it throws `Refusal`, and ends a program that is
    /// built without exceptions.
    const T &value() const &
    {
        check();
        return value_;
    }
    T &value() &
    {
        check();
        return value_;
    }
    T value() &&
    {
        check();
        return std::move(value_);
    }

private:
    void check() const
    {
        if (ok())
            return;
#ifdef __cpp_exceptions
        throw Refusal(error_, std::string(why()));
#else
        std::fprintf(stderr, "tscache: %.*s\n", static_cast<int>(why().size()), why().data());
        std::abort();
#endif
    }

    Error error_ = Error::None;
    T value_{};
};

/// A time of a hybrid logical clock: nanoseconds below 2^63, and a count below 2^31 among those of
/// one nanosecond.
struct Time {
    std::uint64_t wall = 0;
    std::uint32_t logical = 0;

    /// The first time after this one. After the last time there is none.
    [[nodiscard]] std::optional<Time> next() const noexcept
    {
        tsc_time time = {0, 0};
        if (!tsc_next({wall, logical}, &time))
            return std::nullopt;
        return Time{time.wall, time.logical};
    }
};

[[nodiscard]] constexpr bool operator==(Time one, Time other) noexcept
{
    return one.wall == other.wall && one.logical == other.logical;
}
[[nodiscard]] constexpr bool operator<(Time one, Time other) noexcept
{
    return one.wall != other.wall ? one.wall < other.wall : one.logical < other.logical;
}
[[nodiscard]] constexpr bool operator!=(Time one, Time other) noexcept { return !(one == other); }
[[nodiscard]] constexpr bool operator>(Time one, Time other) noexcept { return other < one; }
[[nodiscard]] constexpr bool operator<=(Time one, Time other) noexcept { return !(other < one); }
[[nodiscard]] constexpr bool operator>=(Time one, Time other) noexcept { return !(one < other); }

/// The transaction that owns a time, by its sixteen bytes (a UUID), or nobody: `Owner()`, which is
/// sixteen zeros.
class Owner {
public:
    using Bytes = std::array<std::uint8_t, 16>;

    constexpr Owner() noexcept = default;
    constexpr Owner(std::nullopt_t) noexcept {}
    constexpr Owner(const Bytes &bytes) noexcept : bytes_(bytes) {}

    [[nodiscard]] bool has_value() const noexcept { return bytes_ != Bytes{}; }
    explicit operator bool() const noexcept { return has_value(); }
    [[nodiscard]] constexpr const Bytes &operator*() const noexcept { return bytes_; }

private:
    Bytes bytes_ = {};
};

[[nodiscard]] inline bool operator==(const Owner &one, const Owner &other) noexcept
{
    return *one == *other;
}
[[nodiscard]] inline bool operator!=(const Owner &one, const Owner &other) noexcept
{
    return !(one == other);
}

/// A time with the transaction that owns it.
struct Value {
    Time time;
    Owner owner;
};

[[nodiscard]] inline bool operator==(const Value &one, const Value &other) noexcept
{
    return one.time == other.time && one.owner == other.owner;
}
[[nodiscard]] inline bool operator!=(const Value &one, const Value &other) noexcept
{
    return !(one == other);
}

/// Which ends of a span are no part of it.
enum class Ends : std::uint32_t {
    IncludeBoth = 0,
    ExcludeFrom = TSC_EXCLUDE_FROM,
    ExcludeTo = TSC_EXCLUDE_TO,
    ExcludeBoth = TSC_EXCLUDE_FROM | TSC_EXCLUDE_TO,
};

/// The keys that a read touched, or that a question is about.
///
/// A span has views of its keys, which have to live as long as it is used. So it is not made of a
/// temporary string, which would be gone by the next line: name the string first.
class Span {
    template <class Traits, class Allocator>
    using String = std::basic_string<char, Traits, Allocator>;

public:
    /// One key.
    [[nodiscard]] static constexpr Span point(std::string_view key) noexcept
    {
        return {key, {}, TSC_POINT};
    }
    template <class T, class A> static Span point(const String<T, A> &&) = delete;

    /// From one key to another, which is excluded unless `ends` says something else. From a key to
    /// that same key it is this key alone, but for `Ends::ExcludeBoth`.
    [[nodiscard]] static constexpr Span range(std::string_view from, std::string_view to,
                                              Ends ends = Ends::ExcludeTo) noexcept
    {
        return {from, to, number(ends)};
    }
    template <class T, class A, class To>
    static Span range(const String<T, A> &&, const To &, Ends = Ends::ExcludeTo) = delete;
    template <class From, class T, class A>
    static Span range(const From &, const String<T, A> &&, Ends = Ends::ExcludeTo) = delete;

    /// All keys from one on. It has no second key, so calls refuse one that excludes it, by
    /// `Error::Ends`.
    [[nodiscard]] static constexpr Span onward(std::string_view from,
                                               Ends ends = Ends::IncludeBoth) noexcept
    {
        return {from, {}, TSC_ONWARD | number(ends)};
    }
    template <class T, class A>
    static Span onward(const String<T, A> &&, Ends = Ends::IncludeBoth) = delete;

    [[nodiscard]] constexpr std::string_view from() const noexcept { return from_; }
    [[nodiscard]] constexpr std::string_view to() const noexcept { return to_; }
    /// As tscache.h has them.
    [[nodiscard]] constexpr std::uint32_t ends() const noexcept { return ends_; }

private:
    constexpr Span(std::string_view from, std::string_view to, std::uint32_t ends) noexcept
        : from_(from), to_(to), ends_(ends)
    {
    }

    /// A number that stands for no `Ends` becomes one that calls refuse.
    static constexpr std::uint32_t number(Ends ends) noexcept
    {
        return ends <= Ends::ExcludeBoth ? static_cast<std::uint32_t>(ends) : UINT32_MAX;
    }

    std::string_view from_, to_;
    std::uint32_t ends_;
};

/// A span with the value that is added to it.
struct Mark {
    Span span;
    Value value;
};

/// What an Add did: `kept`, `rotated` and `evicted`.
using Added = tsc_added;

/// What can be counted of a cache: `pages`, `nodes`, `memory`, `refusals` and others.
using Figures = tsc_figures;

/// What an Add of a seat did, and its place among all Adds of the cache, from 0 on.
struct Placed {
    std::uint64_t place = 0;
    Added added = {};
};

/// What a seat answers, and how many Adds it has seen then.
template <class T> struct Seen {
    T answer{};
    std::uint64_t seen = 0;
};

/// How a cache is set up. docs/EMBEDDING.md says what to take.
struct Config {
    std::uint32_t page_first = 128U << 10;
    std::uint32_t page_max = 32U << 20;
    std::uint32_t min_pages = 2;
    std::chrono::nanoseconds retention = std::chrono::seconds(10);
    /// Where the floor stands at first. The holder of a lease sets it to the start of that.
    Time low_water = {};
};

/// Some spans or marks that a call is given: one, a list in braces, a vector or an array. It copies
/// none of them, so it is a parameter and no variable.
template <class T> class View {
public:
    constexpr View(const T &one) noexcept : data_(&one), size_(1) {}
    constexpr View(const T *data, std::size_t size) noexcept : data_(data), size_(size) {}
#if defined(__GNUC__) && !defined(__clang__)
#pragma GCC diagnostic push
#pragma GCC diagnostic ignored "-Winit-list-lifetime"
#endif
    constexpr View(std::initializer_list<T> list) noexcept
        : data_(list.begin()), size_(list.size())
    {
    }
#if defined(__GNUC__) && !defined(__clang__)
#pragma GCC diagnostic pop
#endif
    template <class All, class = std::enable_if_t<std::is_convertible_v<
                             decltype(std::data(std::declval<const All &>())), const T *>>>
    constexpr View(const All &all) noexcept : data_(std::data(all)), size_(std::size(all))
    {
    }

    [[nodiscard]] constexpr const T *begin() const noexcept { return data_; }
    [[nodiscard]] constexpr const T *end() const noexcept { return data_ + size_; }
    [[nodiscard]] constexpr std::size_t size() const noexcept { return size_; }

private:
    const T *data_;
    std::size_t size_;
};

/// How often an Add of a seat tries, where nothing else is asked for.
inline constexpr std::uint32_t TRIES = 64;

/// What this header and the calls below have in common. A program uses none of it.
namespace detail {

inline tsc_time c_time(Time time) noexcept { return {time.wall, time.logical}; }

inline tsc_value c_value(const Value &value) noexcept
{
    tsc_value to = {value.time.wall, value.time.logical, {}};
    std::copy((*value.owner).begin(), (*value.owner).end(), to.owner);
    return to;
}

inline Time from_c(const tsc_time &time) noexcept { return {time.wall, time.logical}; }

inline Value from_c(const tsc_value &value) noexcept
{
    Owner::Bytes owner = {};
    std::copy(std::begin(value.owner), std::end(value.owner), owner.begin());
    return {{value.wall, value.logical}, owner};
}

/// What a call of a seat answers, which in stripes is made again while others hold a lock that it
/// needs.
template <class Call> std::uint32_t until_free(Call call) noexcept
{
    std::uint32_t code = call();
    while (code == TSC_BUSY) {
        std::this_thread::yield();
        code = call();
    }
    return code;
}

/// What a call has written, unless it was refused.
template <class T> Result<T> told(std::uint32_t code, T value) noexcept
{
    if (code != TSC_OK)
        return static_cast<Error>(code);
    return value;
}

/// Room for some things: on the stack for a few, and else on the heap.
template <class T, std::size_t Few> class Room {
public:
    /// Null where memory is refused.
    [[nodiscard]] T *of(std::size_t count) noexcept
    {
        if (count <= Few)
            return few_;
        many_.reset(new (std::nothrow) T[count]);
        return many_.get();
    }

private:
    T few_[Few];
    std::unique_ptr<T[]> many_;
};

inline const Span &span_of(const Span &span) noexcept { return span; }
inline const Span &span_of(const Mark &mark) noexcept { return mark.span; }

/// A span, or a mark, whose keys lie one behind the other from `at` on.
inline tsc_span lying(const Span &span, std::size_t at) noexcept
{
    const std::size_t behind = at + span.from().size();
    return {at, span.from().size(), behind, span.to().size(), span.ends()};
}

inline tsc_mark lying(const Mark &mark, std::size_t at) noexcept
{
    const tsc_span span = lying(mark.span, at);
    return {span.from_at, span.from_len, span.to_at, span.to_len, c_value(mark.value), span.ends};
}

/// Spans or marks as the library takes them: their keys in one piece, and where each key lies.
template <class Of> class Laid {
public:
    using To = decltype(lying(std::declval<const Of &>(), 0));

    explicit Laid(View<Of> all) noexcept : count_(all.size())
    {
        for (const Of &one : all)
            keys_len_ += span_of(one).from().size() + span_of(one).to().size();
        To *to = room_for_items_.of(count_);
        if (!to || !lay_keys(all))
            return;
        items_ = to;
        std::size_t at = 0;
        for (const Of &one : all) {
            *to++ = lying(one, at);
            at += span_of(one).from().size() + span_of(one).to().size();
        }
    }
    Laid(const Laid &) = delete;
    Laid &operator=(const Laid &) = delete;

    /// Whether there was memory for it.
    [[nodiscard]] bool is_laid() const noexcept { return items_ != nullptr; }
    [[nodiscard]] const char *keys() const noexcept { return keys_; }
    [[nodiscard]] std::size_t keys_len() const noexcept { return keys_len_; }
    [[nodiscard]] const To *items() const noexcept { return items_; }
    [[nodiscard]] std::size_t count() const noexcept { return count_; }

private:
    /// A key that has none beside it stays where it lies.
    bool lay_keys(View<Of> all) noexcept
    {
        if (count_ == 1 && span_of(*all.begin()).to().empty()) {
            keys_ = span_of(*all.begin()).from().data();
            return true;
        }
        char *to = room_for_keys_.of(keys_len_);
        keys_ = to;
        if (!to)
            return false;
        for (const Of &one : all) {
            const Span &span = span_of(one);
            to = std::copy(span.from().begin(), span.from().end(), to);
            to = std::copy(span.to().begin(), span.to().end(), to);
        }
        return true;
    }

    Room<char, 1024> room_for_keys_;
    Room<To, 8> room_for_items_;
    const char *keys_ = nullptr;
    const To *items_ = nullptr;
    std::size_t keys_len_ = 0, count_;
};

/// Whether there was memory for so many bytes. Without exceptions a string ends the program where
/// there is none.
inline bool has_room(std::string &bytes, std::size_t room) noexcept
{
#ifdef __cpp_exceptions
    try {
        bytes.resize(room);
    } catch (const std::exception &) {
        return false;
    }
#else
    bytes.resize(room);
#endif
    return true;
}

/// What a call writes. It is asked with room for a few bytes, and where these are too few again,
/// with as many as it takes. A text that was refused comes with its refusal.
template <class Call> Result<std::string> written(Call call) noexcept
{
    std::string bytes;
    for (std::size_t room = 4096;;) {
        if (!has_room(bytes, room))
            return Error::NoMemory;
        std::size_t len = 0;
        const std::uint32_t code = call(bytes.data(), room, &len);
        if (code == TSC_SHORT) {
            room = len;
            continue;
        }
        bytes.resize(len);
        if (code == TSC_OK)
            return bytes;
        return {static_cast<Error>(code), std::move(bytes)};
    }
}

/// A store with one thing in it. It moves, and leaves a store of nothing behind.
class alignas(128) Owned {
protected:
    Owned() noexcept = default;
    Owned(Owned &&other) noexcept { take(other); }
    Owned &operator=(Owned &&other) noexcept
    {
        if (this != &other) {
            free();
            take(other);
        }
        return *this;
    }
    ~Owned() { tsc_free(&store_); }

    void free() noexcept
    {
        tsc_free(&store_);
        handle_ = 0;
    }

    tsc_store store_ = {nullptr};
    std::uint64_t handle_ = 0;

private:
    void take(Owned &other) noexcept
    {
        store_.at = std::exchange(other.store_.at, nullptr);
        handle_ = std::exchange(other.handle_, 0);
    }
};

} // namespace detail

/// A timestamp cache that one thread uses at a time.
class Cache : detail::Owned {
public:
    Cache() noexcept = default;

    /// A cache to which nothing was added.
    static Result<Cache> open(const Config &config) noexcept
    {
        Cache cache;
        const tsc_time low = detail::c_time(config.low_water);
        const std::uint32_t code = tsc_checked_open(
            &cache.store_, config.page_first, config.page_max, config.min_pages,
            static_cast<std::uint64_t>(config.retention.count()), &low, &cache.handle_);
        return detail::told(code, std::move(cache));
    }

    /// Adds a span that was read, with the time and the owner of the read, at the moment `now`.
    Result<Added> add(const Span &span, const Value &value, Time now) noexcept
    {
        const tsc_value read = detail::c_value(value);
        const tsc_time moment = detail::c_time(now);
        Added added = {};
        const std::uint32_t code = tsc_checked_add(
            &store_, handle_, span.from().data(), span.from().size(), span.to().data(),
            span.to().size(), span.ends(), &read, &moment, &added);
        return detail::told(code, added);
    }

    /// Adds several marks, one after another at one moment, all of them or none.
    Result<Added> add_all(View<Mark> marks, Time now) noexcept
    {
        const detail::Laid<Mark> laid(marks);
        const tsc_time moment = detail::c_time(now);
        Added added = {};
        if (!laid.is_laid())
            return Error::NoMemory;
        const std::uint32_t code =
            tsc_checked_add_all(&store_, handle_, laid.keys(), laid.keys_len(), laid.items(),
                                laid.count(), &moment, &added);
        return detail::told(code, added);
    }

    /// The latest time on a span, with its owner where all reads of that time are one
    /// transaction's, or the floor. An inverted span is empty, and the floor answers.
    Result<Value> get_max(const Span &span) noexcept
    {
        tsc_value latest = {};
        const std::uint32_t code =
            tsc_checked_get_max(&store_, handle_, span.from().data(), span.from().size(),
                                span.to().data(), span.to().size(), span.ends(), &latest);
        return detail::told(code, detail::from_c(latest));
    }

    /// The earliest time, not before `at`, at which a transaction may write all of these spans, or
    /// `Error::NoTime`. It costs a lookup for each.
    Result<Time> earliest_write(View<Span> spans, Time at, const Owner &by) noexcept
    {
        const detail::Laid<Span> laid(spans);
        const tsc_value write = detail::c_value({at, by});
        tsc_time time = {};
        if (!laid.is_laid())
            return Error::NoMemory;
        const std::uint32_t code =
            tsc_checked_earliest_write(&store_, handle_, laid.keys(), laid.keys_len(),
                                       laid.items(), laid.count(), &write, &time);
        return detail::told(code, detail::from_c(time));
    }

    /// Whether a transaction may write all of these spans at that time.
    Result<bool> may_write(View<Span> spans, Time at, const Owner &by) noexcept
    {
        const detail::Laid<Span> laid(spans);
        const tsc_value write = detail::c_value({at, by});
        bool may = false;
        if (!laid.is_laid())
            return Error::NoMemory;
        const std::uint32_t code =
            tsc_checked_may_write(&store_, handle_, laid.keys(), laid.keys_len(), laid.items(),
                                  laid.count(), &write, &may);
        return detail::told(code, may);
    }

    /// Where the floor stands.
    Result<Time> low_water() noexcept
    {
        tsc_time floor = {};
        const std::uint32_t code = tsc_checked_low_water(&store_, handle_, &floor);
        return detail::told(code, detail::from_c(floor));
    }

    Result<Figures> figures() noexcept
    {
        Figures figures = {};
        const std::uint32_t code = tsc_checked_figures_of(&store_, handle_, &figures);
        return detail::told(code, figures);
    }

    /// What was read of a span, as bytes for the next holder of its lease, in at most `most` marks.
    /// The caller stops answering reads of the span before it asks.
    Result<std::string> summary(const Span &span, std::size_t most = SIZE_MAX) noexcept
    {
        return detail::written([&](char *out, std::size_t room, std::size_t *len) {
            return tsc_checked_summary(&store_, handle_, span.from().data(), span.from().size(),
                                       span.to().data(), span.to().size(), span.ends(), most, out,
                                       room, len);
        });
    }

    /// Adds what the bytes of a summary tell, at the moment `now`: all of it or nothing. Where it
    /// is refused, answer no write of the span.
    Result<Added> apply(std::string_view summary, Time now) noexcept
    {
        const tsc_time moment = detail::c_time(now);
        Added added = {};
        const std::uint32_t code =
            tsc_checked_apply(&store_, handle_, summary.data(), summary.size(), &moment, &added);
        return detail::told(code, added);
    }

    /// Frees the cache now.
    void close() noexcept { free(); }
};

/// A seat of a shared cache, which is handed in at its end. None of its calls waits, but in stripes
/// those that only read: they let other threads run, and try until they have the locks that they
/// need.
///
/// All Adds of the cache form one history, and a seat has seen a beginning of it. A lookup that
/// has seen more Adds than the place of an Add counts that Add, whichever seat made it, and so does
/// each later lookup of its seat.
class Seat : detail::Owned {
public:
    Seat() noexcept = default;

    /// As of a `Cache`. It is refused by `Error::Busy` where others are in the way at each try:
    /// call `std::this_thread::yield`, and try again.
    Result<Placed> add(const Span &span, const Value &value, Time now,
                       std::uint32_t tries = TRIES) noexcept
    {
        const tsc_value read = detail::c_value(value);
        const tsc_time moment = detail::c_time(now);
        Placed placed;
        const std::uint32_t code = tsc_checked_seat_add(
            &store_, handle_, span.from().data(), span.from().size(), span.to().data(),
            span.to().size(), span.ends(), &read, &moment, tries, &placed.place, &placed.added);
        return detail::told(code, placed);
    }

    /// Adds several marks as one Add, all of them or none.
    Result<Placed> add_all(View<Mark> marks, Time now, std::uint32_t tries = TRIES) noexcept
    {
        const detail::Laid<Mark> laid(marks);
        const tsc_time moment = detail::c_time(now);
        Placed placed;
        if (!laid.is_laid())
            return Error::NoMemory;
        const std::uint32_t code =
            tsc_checked_seat_add_all(&store_, handle_, laid.keys(), laid.keys_len(), laid.items(),
                                     laid.count(), &moment, tries, &placed.place, &placed.added);
        return detail::told(code, placed);
    }

    /// As of a `Cache`.
    Result<Seen<Value>> get_max(const Span &span) noexcept
    {
        tsc_value latest = {};
        std::uint64_t seen = 0;
        const std::uint32_t code = detail::until_free([&] {
            return tsc_checked_seat_get_max(&store_, handle_, span.from().data(),
                                            span.from().size(), span.to().data(), span.to().size(),
                                            span.ends(), &seen, &latest);
        });
        return detail::told(code, Seen<Value>{detail::from_c(latest), seen});
    }

    /// As of a `Cache`, by lookups of the seat, one after another.
    Result<Time> earliest_write(View<Span> spans, Time at, const Owner &by) noexcept
    {
        const detail::Laid<Span> laid(spans);
        const tsc_value write = detail::c_value({at, by});
        tsc_time time = {};
        std::uint64_t seen = 0;
        if (!laid.is_laid())
            return Error::NoMemory;
        const std::uint32_t code = detail::until_free([&] {
            return tsc_checked_seat_earliest_write(&store_, handle_, laid.keys(), laid.keys_len(),
                                                   laid.items(), laid.count(), &write, &seen,
                                                   &time);
        });
        return detail::told(code, detail::from_c(time));
    }

    /// As of a `Cache`, by lookups of the seat, one after another.
    Result<bool> may_write(View<Span> spans, Time at, const Owner &by) noexcept
    {
        const detail::Laid<Span> laid(spans);
        const tsc_value write = detail::c_value({at, by});
        bool may = false;
        std::uint64_t seen = 0;
        if (!laid.is_laid())
            return Error::NoMemory;
        const std::uint32_t code = detail::until_free([&] {
            return tsc_checked_seat_may_write(&store_, handle_, laid.keys(), laid.keys_len(),
                                              laid.items(), laid.count(), &write, &seen, &may);
        });
        return detail::told(code, may);
    }

    /// Where the floor stands; in stripes the earliest floor of all.
    Result<Seen<Time>> low_water() noexcept
    {
        tsc_time floor = {};
        std::uint64_t seen = 0;
        const std::uint32_t code = detail::until_free(
            [&] { return tsc_checked_seat_low_water(&store_, handle_, &seen, &floor); });
        return detail::told(code, Seen<Time>{detail::from_c(floor), seen});
    }

    Result<Seen<Figures>> figures() noexcept
    {
        Seen<Figures> told;
        const std::uint32_t code = detail::until_free([&] {
            return tsc_checked_seat_figures_of(&store_, handle_, &told.seen, &told.answer);
        });
        return detail::told(code, told);
    }

    /// As of a `Cache`, of all that the seat has seen. The caller stops answering reads of the
    /// span, and asks until `seen` is above the place of each thread's last Add, in practice once.
    Result<Seen<std::string>> summary(const Span &span, std::size_t most = SIZE_MAX) noexcept
    {
        std::uint64_t seen = 0;
        auto bytes = detail::written([&](char *out, std::size_t room, std::size_t *len) {
            return detail::until_free([&] {
                return tsc_checked_seat_summary(&store_, handle_, span.from().data(),
                                                span.from().size(), span.to().data(),
                                                span.to().size(), span.ends(), most, &seen, out,
                                                room, len);
            });
        });
        if (!bytes.ok())
            return bytes.error();
        return Seen<std::string>{std::move(bytes).value(), seen};
    }

    /// Hands the seat in now.
    void close() noexcept { free(); }

private:
    friend class Shared;
};

/// A timestamp cache that threads share, for who opened it. They use it by its seats.
class Shared : detail::Owned {
public:
    Shared() noexcept = default;
    Shared(Shared &&other) noexcept
        : Owned(std::move(other)), next_(std::exchange(other.next_, 0)),
          end_(std::exchange(other.end_, 0))
    {
    }
    Shared &operator=(Shared &&other) noexcept
    {
        Owned::operator=(std::move(other));
        if (this != &other) {
            next_ = std::exchange(other.next_, 0);
            end_ = std::exchange(other.end_, 0);
        }
        return *this;
    }
    ~Shared() = default;

    /// A cache to which nothing was added, with 1 to 64 seats. There may be `limit` Adds; a limit
    /// that can be reached is for tests.
    static Result<Shared> open(const Config &config, std::uint32_t seats,
                               std::uint64_t limit = UINT64_MAX) noexcept
    {
        Shared shared;
        const tsc_time low = detail::c_time(config.low_water);
        const std::uint32_t code = tsc_checked_open_shared(
            &shared.store_, config.page_first, config.page_max, config.min_pages,
            static_cast<std::uint64_t>(config.retention.count()), &low, seats, limit,
            &shared.handle_);
        shared.next_ = shared.handle_ + 1;
        shared.end_ = shared.next_ + seats;
        return detail::told(code, std::move(shared));
    }

    /// A cache in stripes to which nothing was added, with 1 seat or more. Stripe 0 has the keys
    /// below the first bound, and each other one those from its bound on, below the next. The place
    /// of an Add is that among its seat's own, and `seen` is how many of its own a seat has made.
    /// `tsc_open_striped` says more.
    static Result<Shared> open_striped(const Config &config, View<std::string_view> bounds,
                                       std::uint32_t seats) noexcept
    {
        Shared shared;
        const tsc_time low = detail::c_time(config.low_water);
        std::size_t keys_len = 0;
        for (const std::string_view bound : bounds)
            keys_len += bound.size();
        detail::Room<char, 1024> room_for_keys;
        detail::Room<std::size_t, 8> room_for_lens;
        char *const keys = room_for_keys.of(keys_len);
        std::size_t *const lens = room_for_lens.of(bounds.size());
        if (!keys || !lens)
            return Error::NoMemory;
        char *key = keys;
        std::size_t *len = lens;
        for (const std::string_view bound : bounds) {
            key = std::copy(bound.begin(), bound.end(), key);
            *len++ = bound.size();
        }
        const std::uint32_t code = tsc_checked_open_striped(
            &shared.store_, config.page_first, config.page_max, config.min_pages,
            static_cast<std::uint64_t>(config.retention.count()), &low, keys, keys_len, lens,
            bounds.size(), seats, &shared.handle_);
        shared.next_ = shared.handle_ + 1;
        shared.end_ = shared.next_ + seats;
        return detail::told(code, std::move(shared));
    }

    /// The next seat that nobody has taken, or `Error::StillOut`. It goes to a thread.
    Result<Seat> seat() noexcept
    {
        if (next_ == end_)
            return end_ == 0 ? Error::Closed : Error::StillOut;
        Seat seat;
        const std::uint32_t code = tsc_checked_move(&store_, next_, &seat.store_, &seat.handle_);
        next_ += code == TSC_OK;
        return detail::told(code, std::move(seat));
    }

    /// Frees the cache, and tells how many Adds there were. It is refused by `Error::StillOut`
    /// where a seat is not handed in, and may be called again then. No seat is taken after it.
    Result<std::uint64_t> close() noexcept
    {
        while (next_ != end_)
            tsc_checked_seat_close(&store_, next_++);
        std::uint64_t adds = 0;
        const std::uint32_t code = tsc_checked_close_shared(&store_, handle_, &adds);
        if (code == TSC_OK)
            *this = Shared();
        return detail::told(code, adds);
    }

private:
    /// The handles of the seats that nobody has taken.
    std::uint64_t next_ = 0, end_ = 0;
};

/// The log of a trace that is replayed on one thread, or `Error::Refused`, and `why` says why.
inline Result<std::string> replay(std::string_view trace) noexcept
{
    return detail::written([&](char *out, std::size_t room, std::size_t *len) {
        return tsc_checked_replay(trace.data(), trace.size(), out, room, len);
    });
}

/// The line of the verdict on a log of a trace, or `Error::Refused`, and `why` says why.
inline Result<std::string> check(std::string_view trace, std::string_view log) noexcept
{
    return detail::written([&](char *out, std::size_t room, std::size_t *len) {
        return tsc_checked_check(trace.data(), trace.size(), log.data(), log.size(), out, room,
                                 len);
    });
}

/// How the library that is linked was built: its `version`, `commit` and `kit`, and whether it is
/// `proved`.
[[nodiscard]] inline const tsc_build &built() noexcept { return *tsc_built(); }

} // namespace tscache

#endif
