/// What a lease remembers of its reads: the timestamp cache, in one of its forms.
#pragma once

#include "keys.hpp"

#include <chrono>
#include <cstdint>
#include <deque>
#include <mutex>
#include <optional>
#include <string>
#include <vector>

namespace rocks_store {

using tscache::Owner, tscache::Span, tscache::Time, tscache::Value;

/// A cache that callers use in turns, or a shared one with seats.
enum class Form { Locked, Seats };

/// How much processor time this thread has spent in calls of caches.
inline thread_local std::chrono::nanoseconds time_in_cache{0};

class Reads {
public:
    /// How many seats a shared cache has. Threads beyond them take turns at a seat.
    static constexpr std::uint32_t SEATS = 8;

    /// Nothing is known of what was read up to `low_water`.
    Reads(Form form, Time low_water);

    /// Remembers a read. It throws where the cache refuses, and the read is not answered then.
    void add(const Keys &keys, const Value &read, Time now);

    /// The earliest time from `at` on at which a transaction may write these, if there is one.
    std::optional<Time> earliest_write(const std::vector<Span> &spans, Time at, const Owner &by);

    /// The latest read of a span.
    Value get_max(const Span &span);

    /// What the next holder of a lease has to know of reads of these keys.
    std::string summary(const Keys &keys);

    /// Takes over what another holder has summed up. Only a cache that is locked can do that.
    void apply(const std::string &summary, Time now);

    /// The bytes of its pages; of a shared cache, of one of the two copies.
    std::uint64_t memory();

private:
    /// A cache or a seat, with the turn to use it.
    template <class Cache> struct Turns {
        std::mutex turn;
        Cache cache;
    };

    /// Makes a call on the cache, or on the seat of this thread, in its turn.
    template <class Call> auto ask(Call call);

    Turns<tscache::Cache> locked_;
    tscache::Shared shared_;
    std::deque<Turns<tscache::Seat>> seats_; // which are handed in before the cache closes
};

} // namespace rocks_store
