/// The versions of all keys, in RocksDB.
#pragma once

#include "keys.hpp"

#include <functional>
#include <map>
#include <memory>
#include <optional>
#include <string>
#include <vector>

#include <rocksdb/db.h>

namespace rocks_store {

using tscache::Time;

struct Row {
    std::string key, value;
};

/// What a transaction leaves to its keys: a value, or a deletion.
using Writes = std::map<std::string, std::optional<std::string>>;

/// A key of RocksDB is a user's key with a time, and lies behind all of lesser user's keys and
/// before all earlier times of its own. So the version as of a time is the first from there on.
///
/// A user's key has any bytes. Its zeros are written as 0 255, and 0 1 ends it, so that no key is
/// the beginning of another one, and all keep their order.
class Versions {
public:
    /// Opens what is in a folder, or a store of nothing. Writes are synced unless `is_synced` says
    /// otherwise. `env` is where the files are.
    Versions(const std::string &folder, rocksdb::Env *env, bool is_synced);

    /// Each of the keys that has a value as of a time, with that.
    [[nodiscard]] std::vector<Row> rows(const Keys &keys, Time at);

    /// The time of a key's last version.
    [[nodiscard]] std::optional<Time> newest(const std::string &key);

    /// Whether one of the keys has a version that is later than a time, and not later than another.
    [[nodiscard]] bool have_changed(const Keys &keys, Time after, Time until);

    /// Writes all or nothing, and returns once it is on the disk.
    void write(const Writes &writes, Time at);

    /// Drops versions before the threshold that no read from there on sees. Others may write
    /// meanwhile, from the threshold on.
    void drop_before(Time threshold);

    /// The time that the clock has last promised to stay below.
    [[nodiscard]] Time mark() { return time_at('m'); }
    void set_mark(Time mark) { put_time('m', mark); }

    /// The time before which versions may be gone.
    [[nodiscard]] Time threshold() { return time_at('t'); }
    void set_threshold(Time threshold) { put_time('t', threshold); }

    /// The first key of each range, in order.
    [[nodiscard]] std::vector<std::string> bounds();
    void add_bound(const std::string &key);

    /// RocksDB itself.
    [[nodiscard]] rocksdb::DB &engine() { return *db_; }

private:
    using Each = std::function<bool(const std::string &, Time, const rocksdb::Slice &)>;

    /// Calls for the version of each key as of a time, until it is answered with false.
    void walk(const Keys &keys, Time at, const Each &each);
    std::unique_ptr<rocksdb::Iterator> iterator();
    Time time_at(char key);
    void put_time(char key, Time time);
    void put_synced(const std::string &key, const std::string &value);

    std::unique_ptr<rocksdb::DB> db_;
    rocksdb::WriteOptions how_;
};

} // namespace rocks_store
