#include "versions.hpp"

#include <rocksdb/write_batch.h>

#include <stdexcept>
#include <utility>

using rocksdb::Slice;

namespace rocks_store {
namespace {

/// The first byte of a key of RocksDB: a range, or a version. (Times of the store have others.)
constexpr char BOUND = 'r', VERSION = 'v';
/// The first byte of a version.
constexpr char DELETED = 0, PRESENT = 1;
constexpr std::size_t TIME = 12; // bytes
constexpr Time LAST = {UINT64_MAX >> 1, UINT32_MAX >> 1};

void check(const rocksdb::Status &status)
{
    if (!status.ok())
        throw std::runtime_error("rocksdb: " + status.ToString());
}

/// Numbers go down where times go up.
void put_number(std::string &to, std::uint64_t number, unsigned bytes)
{
    while (bytes-- > 0)
        to += static_cast<char>(~number >> (8 * bytes));
}

std::uint64_t number_of(Slice from)
{
    std::uint64_t number = 0;
    for (std::size_t i = 0; i < from.size(); i++)
        number = number << 8 | static_cast<unsigned char>(~from[i]);
    return number;
}

std::string bytes_of(Time time)
{
    std::string bytes;
    put_number(bytes, time.wall, 8);
    put_number(bytes, time.logical, 4);
    return bytes;
}

Time time_of(Slice bytes)
{
    return {number_of({bytes.data(), 8}),
            static_cast<std::uint32_t>(number_of({bytes.data() + 8, 4}))};
}

/// A user's key as keys of RocksDB have it, ended by 0 and another byte.
std::string ended(const std::string &key, char end)
{
    std::string bytes(1, VERSION);
    for (const char byte : key) {
        bytes += byte;
        if (byte == 0)
            bytes += '\xff';
    }
    bytes += '\0';
    bytes += end;
    return bytes;
}

/// What all versions of a user's key begin with, and what lies behind them and before other keys.
std::string before_all(const std::string &key) { return ended(key, 1); }
std::string behind_all(const std::string &key) { return ended(key, 2); }
std::string version_of(const std::string &key, Time time)
{
    return before_all(key) + bytes_of(time);
}

/// The user's key and the time, of a key of RocksDB.
std::pair<std::string, Time> parts_of(Slice version)
{
    const std::size_t end = version.size() - TIME;
    std::string key;
    for (std::size_t i = 1; i + 2 < end; i++) {
        key += version[i];
        i += version[i] == 0; // and 255 behind it
    }
    return {std::move(key), time_of({version.data() + end, TIME})};
}

bool is_at_version(const rocksdb::Iterator &at)
{
    if (!at.Valid())
        check(at.status());
    return at.Valid() && at.key()[0] == VERSION;
}

} // namespace

Versions::Versions(const std::string &folder, rocksdb::Env *env, bool is_synced)
{
    rocksdb::Options options;
    options.create_if_missing = true;
    options.env = env;
    options.compression = rocksdb::kNoCompression;
    rocksdb::DB *db = nullptr;
    check(rocksdb::DB::Open(options, folder, &db));
    db_.reset(db);
    how_.sync = is_synced;
}

std::unique_ptr<rocksdb::Iterator> Versions::iterator()
{
    return std::unique_ptr<rocksdb::Iterator>(db_->NewIterator(rocksdb::ReadOptions()));
}

void Versions::walk(const Keys &keys, Time at, const Each &each)
{
    const auto next = iterator();
    next->Seek(keys.is_one() ? version_of(keys.from(), at) : before_all(keys.from()));
    while (is_at_version(*next)) {
        const auto [key, time] = parts_of(next->key());
        if (!keys.end_after(key))
            break;
        if (at < time) {
            next->Seek(version_of(key, at)); // which may be of the next key
            continue;
        }
        if (!each(key, time, next->value()) || keys.is_one())
            break;
        next->Seek(behind_all(key));
    }
}

std::vector<Row> Versions::rows(const Keys &keys, Time at)
{
    std::vector<Row> rows;
    walk(keys, at, [&](const std::string &key, Time, const Slice &version) {
        if (version[0] == PRESENT)
            rows.push_back({key, {version.data() + 1, version.size() - 1}});
        return true;
    });
    return rows;
}

std::optional<Time> Versions::newest(const std::string &key)
{
    std::optional<Time> newest;
    walk(Keys::one(key), LAST, [&](const std::string &, Time time, const Slice &) {
        newest = time;
        return false;
    });
    return newest;
}

bool Versions::have_changed(const Keys &keys, Time after, Time until)
{
    bool changed = false;
    walk(keys, until, [&](const std::string &, Time time, const Slice &) {
        changed = after < time;
        return !changed;
    });
    return changed;
}

void Versions::write(const Writes &writes, Time at)
{
    rocksdb::WriteBatch batch;
    for (const auto &[key, value] : writes) {
        std::string version(1, value ? PRESENT : DELETED);
        check(batch.Put(version_of(key, at), version + value.value_or("")));
    }
    check(db_->Write(how_, &batch));
}

void Versions::drop_before(Time threshold)
{
    std::optional<std::string> last; // the user's key of the version before this one,
    bool is_hidden = false;          // and whether one before the threshold hides the rest of it
    rocksdb::WriteBatch batch;
    const auto each = iterator();
    for (each->Seek({&VERSION, 1}); is_at_version(*each); each->Next()) {
        const auto [key, time] = parts_of(each->key());
        if (key != last) {
            // (a deletion goes together with what it hides, so that no crash brings that back)
            if (batch.Count() > 1000) {
                check(db_->Write({}, &batch));
                batch.Clear();
            }
            last = key;
            is_hidden = false;
        }
        if (threshold <= time)
            continue;
        if (is_hidden || each->value()[0] == DELETED)
            check(batch.Delete(each->key()));
        is_hidden = true;
    }
    check(db_->Write({}, &batch));
}

Time Versions::time_at(char key)
{
    std::string bytes;
    const rocksdb::Status status = db_->Get({}, {&key, 1}, &bytes);
    if (!status.IsNotFound())
        check(status);
    return status.ok() ? time_of(bytes) : Time{};
}

void Versions::put_time(char key, Time time) { put_synced({key}, bytes_of(time)); }

std::vector<std::string> Versions::bounds()
{
    std::vector<std::string> bounds = {""};
    const auto each = iterator();
    for (each->Seek({&BOUND, 1}); each->Valid() && each->key()[0] == BOUND; each->Next())
        bounds.emplace_back(each->key().data() + 1, each->key().size() - 1);
    check(each->status());
    return bounds;
}

void Versions::add_bound(const std::string &key) { put_synced(BOUND + key, ""); }

void Versions::put_synced(const std::string &key, const std::string &value)
{
    rocksdb::WriteOptions synced;
    synced.sync = true;
    check(db_->Put(synced, key, value));
}

} // namespace rocks_store
