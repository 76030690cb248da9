/// A transactional store over RocksDB, whose ranges remember by the timestamp cache what was read.
///
///     Database database(options);
///     Transaction teller = database.begin();
///     auto rows = database.read(teller, Keys::one("anna"));
///     if (!rows)
///         return;                             // that time is too early by now: begin anew
///     teller.put("anna", "90");
///     teller.put("bob", "10");
///     if (!database.commit(teller))
///         return;                             // nothing was written: begin anew
///
/// Transactions are serializable, in the order of their times. One that begins after another has
/// committed comes after it. docs/STORE.md walks through a read, a write and a crash.
#pragma once

#include "clock.hpp"
#include "keys.hpp"
#include "latches.hpp"
#include "reads.hpp"
#include "versions.hpp"

#include <array>
#include <atomic>
#include <map>
#include <optional>
#include <string>
#include <vector>

namespace rocks_store {

/// What the store leaves out, to show that the load and the checker find it.
enum class Flaw {
    None,
    ReadsNotRemembered,
    WritesDoNotAsk,
    OwnAnswerTrap,
    NoRefresh,
    NoLowWaterAfterCrash,
    LeaseWithoutSummary,
    NoSync,
};

struct Options {
    std::string folder;
    rocksdb::Env *env = rocksdb::Env::Default();
    Form form = Form::Locked;
    Flaw flaw = Flaw::None;
};

/// What a client has of its transaction. It outlives the store objects that have served it.
struct Transaction {
    Owner id;
    Time at; // it reads as of this time
    std::vector<Keys> reads;
    Writes writes;

    void put(std::string key, std::string value) { writes[std::move(key)] = std::move(value); }
    void erase(std::string key) { writes[std::move(key)] = std::nullopt; }
};

/// A store object, as a node of a cluster is one: it has the leases of some ranges, each with a
/// cache of its own, by the first keys of the ranges. A crash leaves nothing of it.
using Holder = std::map<std::string, Reads>;

class Database {
public:
    /// Opens what is in the folder. The new leases know nothing of the reads before.
    explicit Database(const Options &options);

    /// A transaction whose time is now.
    [[nodiscard]] Transaction begin();

    /// Those of the keys that have a value as of the transaction's time, with its own writes put
    /// over them. None where so early a time is not kept any more.
    [[nodiscard]] std::optional<std::vector<Row>> read(Transaction &by, const Keys &keys);

    /// Writes what the transaction left to its keys, and returns its time. None where another one
    /// has come between its reads and its writes: nothing is written, and it may begin anew.
    [[nodiscard]] std::optional<Time> commit(const Transaction &by);

    /// Divides the range that has a key, which becomes the first of the second part.
    void split(const std::string &key);

    /// The lease of the range that has a key goes to the other holder, with what it remembers.
    void move_lease(const std::string &key);

    /// The holder of that lease is gone, with all that it remembered. The other one takes over.
    void crash(const std::string &key);

    /// Drops old versions, and refuses transactions that would see them.
    void drop_before(Time threshold);

    [[nodiscard]] Time now() { return clock_.now(); }
    [[nodiscard]] std::size_t ranges();
    [[nodiscard]] std::uint64_t memory_of_caches();
    [[nodiscard]] rocksdb::DB &engine() { return versions_.engine(); }

private:
    struct Range {
        Keys keys;
        std::size_t holder;
    };
    using Ranges = std::map<std::string, Range>; // by their first keys

    Ranges::iterator range_of(const std::string &key) { return --ranges_.upper_bound(key); }
    Reads &lease_of(const Range &range) { return holders_[range.holder].at(range.keys.from()); }
    Reads &open_lease(const Range &range, Time low_water);
    void hand_on(Reads &from, const Range &range);
    [[nodiscard]] std::size_t other(std::size_t holder) const { return 1 - holder; }
    [[nodiscard]] Time low_water(Time mark) const;

    [[nodiscard]] Latches::Held hold_all();
    void remember(const Keys &keys, const Value &read);
    std::optional<Time> free_time(const Transaction &by);
    std::optional<Time> earliest_write(Reads &reads, const std::vector<Span> &spans, Time at,
                                       const Owner &by);
    bool refresh(const Transaction &by, Time at);

    const Form form_;
    const Flaw flaw_;
    Versions versions_;
    const Time crashed_at_; // no earlier than all that was read or written before
    Clock clock_;
    Latches latches_;
    std::atomic<std::uint64_t> transactions_ = 0;

    // Each call holds latches while it uses what follows, and those of all keys to change it.
    Ranges ranges_;
    std::array<Holder, 2> holders_;
    Time threshold_;
};

} // namespace rocks_store
