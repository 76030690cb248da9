/// Latches by key: what calls hold while they look at versions and ask the cache.
#pragma once

#include "keys.hpp"

#include <algorithm>
#include <condition_variable>
#include <list>
#include <mutex>
#include <utility>
#include <vector>

namespace rocks_store {

/// A caller asks for all its latches at once, and waits for those alone who came before it and are
/// in its way. So nobody waits in a circle, and nobody is overtaken for ever. Each latch is compared
/// with each one before it, so a call of thousands of keys is better one of a span.
class Latches {
public:
    /// Keys that are read, which others may read too, or keys that are written.
    struct Latch {
        Keys keys;
        bool is_write;
    };
    using Queue = std::list<std::vector<Latch>>;

    /// Some latches, until its end.
    class Held {
    public:
        Held(Latches &latches, Queue::iterator own) : latches_(latches), own_(own) {}
        Held(const Held &) = delete;
        Held &operator=(const Held &) = delete;
        ~Held() { latches_.release(own_); }

    private:
        Latches &latches_;
        Queue::iterator own_;
    };

    [[nodiscard]] Held hold(std::vector<Latch> wanted)
    {
        std::unique_lock<std::mutex> lock(mutex_);
        const auto own = queue_.insert(queue_.end(), std::move(wanted));
        released_.wait(lock, [&] {
            return std::none_of(queue_.begin(), own,
                                [&](const auto &earlier) { return conflict(earlier, *own); });
        });
        return {*this, own};
    }

private:
    static bool conflict(const std::vector<Latch> &some, const std::vector<Latch> &others)
    {
        for (const Latch &one : some)
            for (const Latch &other : others)
                if ((one.is_write || other.is_write) && one.keys.overlap(other.keys))
                    return true;
        return false;
    }

    void release(Queue::iterator own)
    {
        std::lock_guard<std::mutex> lock(mutex_);
        queue_.erase(own);
        released_.notify_all();
    }

    std::mutex mutex_;
    std::condition_variable released_;
    Queue queue_; // in the order in which they came, those who wait among them
};

} // namespace rocks_store
