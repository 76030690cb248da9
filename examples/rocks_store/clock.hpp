/// A hybrid logical clock whose times go on rising after a crash.
#pragma once

#include "versions.hpp"

#include <algorithm>
#include <chrono>
#include <mutex>

namespace rocks_store {

/// It tells the time of the machine, or a later one that it was forwarded to. Each time that it has
/// told lies before its mark, which is on the disk first. So whoever opens the store after a crash
/// finds a time that is later than all reads and all writes before.
///
/// Transactions that begin within one tick share a time. Nothing but their names keeps them apart.
class Clock {
public:
    static constexpr std::chrono::nanoseconds TICK = std::chrono::milliseconds(1);
    /// How far the mark goes ahead: at most ten marks are written in a second.
    static constexpr std::chrono::nanoseconds AHEAD = std::chrono::milliseconds(100);

    /// Goes on at the mark of those who had the store before.
    explicit Clock(Versions &versions) : versions_(versions), mark_(versions.mark())
    {
        forward(mark_);
    }

    Time now()
    {
        const auto since = std::chrono::system_clock::now().time_since_epoch();
        const std::chrono::nanoseconds wall = since - since % TICK;
        return forward({static_cast<std::uint64_t>(wall.count())});
    }

    /// Tells the time, which is not earlier than this one.
    Time forward(Time time)
    {
        std::lock_guard<std::mutex> lock(mutex_);
        last_ = std::max(last_, time);
        if (last_.wall >= mark_.wall) {
            const Time ahead = {last_.wall + static_cast<std::uint64_t>(AHEAD.count())};
            versions_.set_mark(ahead);
            mark_ = ahead;
        }
        return last_;
    }

    /// A time that is later than all that were told.
    [[nodiscard]] Time mark()
    {
        std::lock_guard<std::mutex> lock(mutex_);
        return mark_;
    }

private:
    std::mutex mutex_;
    Versions &versions_;
    Time last_, mark_;
};

} // namespace rocks_store
