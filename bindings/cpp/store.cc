/// A small store of several versions that threads serve, and whose writes ask the timestamp cache.
///
/// A transaction reads a key at a time, and the read is added to the cache before it is answered. A
/// write asks under the latch of its key, and goes to the time that it is told. Each thread has a
/// seat. At the end each read is made once more, as of its time: none finds anything else. A second
/// trial shows that many do where writes do not ask. Its last line is `N passed, M failed`.
///
///     c++ -std=c++17 store.cc -IOUT -LOUT -ltscache -pthread -o store && ./store
#include "tscache.hpp"

#include <array>
#include <atomic>
#include <cstring>
#include <iostream>
#include <map>
#include <mutex>
#include <random>
#include <thread>
#include <vector>

using tscache::Error, tscache::Owner, tscache::Seat, tscache::Span, tscache::Time;

constexpr std::size_t KEYS = 16, THREADS = 4, TURNS = 3000, LAG = 50;

/// The versions of a key, by their times, and the latch that a read and a write of it hold.
struct Key {
    std::string name;
    std::mutex latch;
    std::map<Time, std::uint64_t> versions;

    /// The value as of a time. 0 is before all versions.
    std::uint64_t at(Time time) const
    {
        auto next = versions.upper_bound(time);
        return next == versions.begin() ? 0 : std::prev(next)->second;
    }
};

struct Answer {
    Key *key;
    Time at;
    std::uint64_t value;
};

/// A read that is not added is not answered: `value` throws where the Add is refused.
Answer read(Seat &seat, Key &key, const tscache::Value &as)
{
    std::lock_guard<std::mutex> hold(key.latch);
    auto added = seat.add(Span::point(key.name), as, as.time);
    while (added.error() == Error::Busy) {
        std::this_thread::yield();
        added = seat.add(Span::point(key.name), as, as.time);
    }
    added.value();
    return {&key, as.time, key.at(as.time)};
}

/// The time of a write, or none where it may be made at no time.
std::optional<Time> write(Seat *asked, Key &key, Time wanted, Owner by, std::uint64_t value)
{
    std::lock_guard<std::mutex> hold(key.latch);
    for (std::optional<Time> at = wanted; at; at = at->next()) {
        if (asked) {
            auto earliest = asked->earliest_write(Span::point(key.name), *at, by);
            if (earliest.error() == Error::NoTime)
                return std::nullopt;
            at = earliest.value();
        }
        if (key.versions.emplace(*at, value).second) // no other version has this time
            return at;
    }
    return std::nullopt;
}

/// Says how it went, and whether that is as it has to be.
bool trial(bool asks)
{
    std::array<Key, KEYS> keys;
    for (std::size_t i = 0; i < KEYS; i++)
        keys[i].name = "key " + std::to_string(i);
    std::atomic<std::uint64_t> clock = LAG, writes = 0, pushed = 0, changed = 0;
    auto shared = tscache::Shared::open({}, THREADS).value();
    std::array<std::vector<Answer>, THREADS> answers;
    std::vector<std::thread> threads;
    for (std::size_t i = 0; i < THREADS; i++) {
        threads.emplace_back([&, i, seat = shared.seat().value()]() mutable {
            std::mt19937 random(static_cast<std::mt19937::result_type>(i));
            for (std::size_t turn = 0; turn < TURNS; turn++) {
                const Time now = {++clock}, wanted = {now.wall - random() % LAG};
                Owner::Bytes by = {};
                std::memcpy(by.data(), &now.wall, sizeof now.wall);
                Key &key = keys[random() % KEYS];
                if (turn % 2) {
                    answers[i].push_back(read(seat, key, {now, by}));
                } else if (auto at = write(asks ? &seat : nullptr, key, wanted, by, now.wall)) {
                    writes++;
                    pushed += *at != wanted;
                }
            }
        });
    }
    for (std::thread &thread : threads)
        thread.join();
    const std::uint64_t reads = shared.close().value(); // each thread has handed its seat in
    for (const auto &of_one : answers)
        for (const Answer &answer : of_one)
            changed += answer.key->at(answer.at) != answer.value;
    std::cout << (asks ? "writes that ask: " : "writes that never ask: ") << writes << ", "
              << pushed << " pushed; " << reads << " reads, " << changed << " changed\n";
    return asks ? changed == 0 && pushed > writes / 10 : changed > 0;
}

int main()
{
    const int passed = trial(true) + trial(false);
    std::cout << passed << " passed, " << 2 - passed << " failed\n";
    return passed != 2;
}
