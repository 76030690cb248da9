#include "reads.hpp"

#include <atomic>
#include <ctime>
#include <thread>
#include <utility>

using tscache::Error;

namespace rocks_store {
namespace {

/// How much processor time this thread has had.
std::chrono::nanoseconds processor_time()
{
    timespec time = {};
    clock_gettime(CLOCK_THREAD_CPUTIME_ID, &time);
    return std::chrono::seconds(time.tv_sec) + std::chrono::nanoseconds(time.tv_nsec);
}

/// Counts the processor time of its life.
class Counted {
public:
    ~Counted() { time_in_cache += processor_time() - begin_; }

private:
    std::chrono::nanoseconds begin_ = processor_time();
};

std::atomic<std::size_t> threads = 0;
thread_local const std::size_t number_of_thread = threads++;

template <class Turns, class Call> auto in_turn(Turns &turns, Call call)
{
    std::lock_guard<std::mutex> lock(turns.turn);
    return call(turns.cache);
}

/// What a cache answers, and what a seat answers.
template <class T> T answer(T told) { return told; }
template <class T> T answer(tscache::Seen<T> told) { return std::move(told.answer); }

} // namespace

/// A lookup at a seat counts each Add that has returned, whichever seat made it.
template <class Call> auto Reads::ask(Call call)
{
    const Counted counted;
    if (seats_.empty())
        return in_turn(locked_, call);
    return in_turn(seats_[number_of_thread % SEATS], call);
}

Reads::Reads(Form form, Time low_water)
{
    tscache::Config config;
    config.low_water = low_water;
    if (form == Form::Locked) {
        locked_.cache = tscache::Cache::open(config).value();
        return;
    }
    shared_ = tscache::Shared::open(config, SEATS).value();
    for (std::uint32_t i = 0; i < SEATS; i++)
        seats_.emplace_back().cache = shared_.seat().value();
}

void Reads::add(const Keys &keys, const Value &read, Time now)
{
    ask([&](auto &cache) {
        auto added = cache.add(keys.span(), read, now);
        while (added.error() == Error::Busy) { // as a seat may be
            std::this_thread::yield();
            added = cache.add(keys.span(), read, now);
        }
        added.value();
    });
}

std::optional<Time> Reads::earliest_write(const std::vector<Span> &spans, Time at, const Owner &by)
{
    const auto earliest = ask([&](auto &cache) { return cache.earliest_write(spans, at, by); });
    if (earliest.error() == Error::NoTime)
        return std::nullopt;
    return earliest.value();
}

Value Reads::get_max(const Span &span)
{
    return ask([&](auto &cache) { return answer(cache.get_max(span).value()); });
}

std::string Reads::summary(const Keys &keys)
{
    return ask([&](auto &cache) { return answer(cache.summary(keys.span()).value()); });
}

void Reads::apply(const std::string &summary, Time now)
{
    in_turn(locked_, [&](auto &cache) { cache.apply(summary, now).value(); });
}

std::uint64_t Reads::memory()
{
    return ask([&](auto &cache) { return answer(cache.figures().value()).memory; });
}

} // namespace rocks_store
