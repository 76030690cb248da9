#include "database.hpp"

#include <algorithm>
#include <cstring>
#include <iterator>
#include <utility>

namespace rocks_store {
namespace {

/// The rows of some keys with what was written to these put over them.
std::vector<Row> with_own(std::vector<Row> rows, const Writes &writes, const Keys &keys)
{
    std::vector<Row> all;
    auto row = rows.begin();
    for (auto own = writes.lower_bound(keys.from());
         own != writes.end() && keys.end_after(own->first); ++own) {
        for (; row != rows.end() && row->key < own->first; ++row)
            all.push_back(std::move(*row));
        if (row != rows.end() && row->key == own->first)
            ++row;
        if (own->second)
            all.push_back({own->first, *own->second});
    }
    std::move(row, rows.end(), std::back_inserter(all));
    return all;
}

} // namespace

Database::Database(const Options &options)
    : form_(options.form), flaw_(options.flaw),
      versions_(options.folder, options.env, options.flaw != Flaw::NoSync),
      crashed_at_(versions_.mark()), clock_(versions_), threshold_(versions_.threshold())
{
    const auto bounds = versions_.bounds();
    for (std::size_t i = 0; i < bounds.size(); i++) {
        const bool is_last = i + 1 == bounds.size();
        const Range range = {is_last ? Keys::onward(bounds[i])
                                     : Keys::between(bounds[i], bounds[i + 1]),
                             i % holders_.size()};
        open_lease(range, low_water(crashed_at_));
        ranges_.emplace(bounds[i], range);
    }
}

Transaction Database::begin()
{
    const Time now = clock_.now();
    const std::uint64_t parts[2] = {crashed_at_.wall + 1, ++transactions_};
    Owner::Bytes id;
    std::memcpy(id.data(), parts, sizeof parts);
    return {id, now, {}, {}};
}

std::optional<std::vector<Row>> Database::read(Transaction &by, const Keys &keys)
{
    const auto latches = latches_.hold({{keys, false}});
    if (by.at < threshold_)
        return std::nullopt;
    std::vector<Row> rows = versions_.rows(keys, by.at);
    remember(keys, {by.at, by.id});
    by.reads.push_back(keys);
    return with_own(std::move(rows), by.writes, keys);
}

/// The read is remembered by the lease of each range that it touches.
void Database::remember(const Keys &keys, const Value &read)
{
    if (flaw_ == Flaw::ReadsNotRemembered)
        return;
    for (auto at = range_of(keys.from()); at != ranges_.end(); ++at) {
        const Range &range = at->second;
        if (!range.keys.overlap(keys))
            break;
        lease_of(range).add(keys.among(range.keys), read, read.time);
    }
}

std::optional<Time> Database::commit(const Transaction &by)
{
    if (by.writes.empty())
        return by.at;
    std::vector<Latches::Latch> wanted;
    for (const Keys &keys : by.reads)
        wanted.push_back({keys, false});
    for (const auto &[key, value] : by.writes)
        wanted.push_back({Keys::one(key), true});
    const auto latches = latches_.hold(std::move(wanted));

    if (by.at < threshold_)
        return std::nullopt;
    const std::optional<Time> at = free_time(by);
    if (!at)
        return std::nullopt;
    clock_.forward(*at); // whoever begins after this commit sees it
    if (*at != by.at && !refresh(by, *at))
        return std::nullopt;
    versions_.write(by.writes, *at);
    return at;
}

/// The earliest time from the transaction's own on that is later than each version of what it
/// writes, and at which no other transaction's read would be changed.
std::optional<Time> Database::free_time(const Transaction &by)
{
    Time at = by.at;
    std::map<Reads *, std::vector<Span>> asked;
    for (const auto &[key, value] : by.writes) {
        const std::optional<Time> newest = versions_.newest(key);
        if (newest && at <= *newest) {
            const std::optional<Time> next = newest->next();
            if (!next)
                return std::nullopt;
            at = *next;
        }
        asked[&lease_of(range_of(key)->second)].push_back(Span::point(key));
    }
    if (flaw_ == Flaw::WritesDoNotAsk)
        return at;
    for (bool was_pushed = true; was_pushed;) { // until all leases agree
        was_pushed = false;
        for (auto &[reads, spans] : asked) {
            const std::optional<Time> earliest = earliest_write(*reads, spans, at, by.id);
            if (!earliest)
                return std::nullopt;
            was_pushed = was_pushed || at < *earliest;
            at = *earliest;
        }
    }
    return at;
}

std::optional<Time> Database::earliest_write(Reads &reads, const std::vector<Span> &spans, Time at,
                                             const Owner &by)
{
    if (flaw_ != Flaw::OwnAnswerTrap)
        return reads.earliest_write(spans, at, by);
    for (const Span &span : spans) { // what has its time, or its name, it takes for its own read
        const Value last = reads.get_max(span);
        if (at < last.time && last.owner != by)
            at = last.time.next().value();
    }
    return at;
}

/// Whether the transaction reads the same as of a later time, which is remembered then.
bool Database::refresh(const Transaction &by, Time at)
{
    if (flaw_ == Flaw::NoRefresh)
        return true;
    for (const Keys &keys : by.reads)
        if (versions_.have_changed(keys, by.at, at))
            return false;
    for (const Keys &keys : by.reads)
        remember(keys, {at, by.id});
    return true;
}

Latches::Held Database::hold_all() { return latches_.hold({{Keys::onward(""), true}}); }

Reads &Database::open_lease(const Range &range, Time low_water)
{
    Holder &holder = holders_[range.holder];
    holder.erase(range.keys.from()); // one that was opened for a call that failed then
    return holder.try_emplace(range.keys.from(), form_, low_water).first->second;
}

/// What is known of reads before a crash: that they all lie before the mark of the clock.
Time Database::low_water(Time mark) const
{
    return flaw_ == Flaw::NoLowWaterAfterCrash ? Time{} : mark;
}

/// Opens a lease that remembers what another one remembers of a range. A shared cache takes no
/// summary: there the whole range counts as read at the time of its latest read.
void Database::hand_on(Reads &from, const Range &range)
{
    if (form_ == Form::Seats)
        open_lease(range, from.get_max(range.keys.span()).time);
    else
        open_lease(range, {}).apply(from.summary(range.keys), clock_.now());
}

void Database::split(const std::string &key)
{
    const auto latches = hold_all();
    Range &left = range_of(key)->second;
    if (left.keys.from() == key)
        return;
    const Range right = {Keys::onward(key).among(left.keys), left.holder};
    hand_on(lease_of(left), right);
    versions_.add_bound(key);
    ranges_.emplace(key, right);
    left.keys = Keys::between(left.keys.from(), key);
}

void Database::move_lease(const std::string &key)
{
    const auto latches = hold_all();
    Range &range = range_of(key)->second;
    const Range moved = {range.keys, other(range.holder)};
    if (flaw_ == Flaw::LeaseWithoutSummary)
        open_lease(moved, {});
    else
        hand_on(lease_of(range), moved);
    holders_[range.holder].erase(range.keys.from());
    range.holder = moved.holder;
}

void Database::crash(const std::string &key)
{
    const auto latches = hold_all();
    const std::size_t crashed = range_of(key)->second.holder;
    for (const auto &[from, range] : ranges_)
        if (range.holder == crashed)
            open_lease({range.keys, other(crashed)}, low_water(clock_.mark()));
    for (auto &[from, range] : ranges_)
        range.holder = other(crashed);
    holders_[crashed].clear();
}

void Database::drop_before(Time threshold)
{
    {
        const auto latches = hold_all();
        threshold_ = std::max(threshold_, threshold);
        versions_.set_threshold(threshold_); // which has to outlive what it drops
    }
    versions_.drop_before(threshold);
}

std::size_t Database::ranges()
{
    const auto latches = hold_all();
    return ranges_.size();
}

std::uint64_t Database::memory_of_caches()
{
    const auto latches = hold_all();
    std::uint64_t bytes = 0;
    for (Holder &holder : holders_)
        for (auto &[from, reads] : holder)
            bytes += reads.memory();
    return bytes;
}

} // namespace rocks_store
