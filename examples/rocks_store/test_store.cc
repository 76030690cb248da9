/// Tests of the store that need no load: keys of any bytes, and transactions in a fixed order.
///
///     test_store FOLDER       a new folder; the last line is `N passed, M failed`
#include "database.hpp"

#include <filesystem>
#include <functional>
#include <iostream>

using namespace rocks_store;

namespace {

int passed = 0, failed = 0;

void expect(bool holds, const std::string &what)
{
    (holds ? passed : failed)++;
    if (!holds)
        std::cout << "failed: " << what << '\n';
}

std::map<std::string, std::string> all(Database &database, const Keys &keys)
{
    Transaction by = database.begin();
    const std::vector<Row> rows = database.read(by, keys).value();
    std::map<std::string, std::string> values;
    for (const Row &row : rows)
        values.emplace(row.key, row.value);
    return values;
}

bool put(Database &database, const std::string &key, const std::string &value)
{
    Transaction by = database.begin();
    by.put(key, value);
    return database.commit(by).has_value();
}

/// Keys that an encoding may get wrong: with zeros, with 255, and beginnings of one another.
void keys_of_any_bytes(const Options &options)
{
    std::vector<std::string> keys = {""};
    for (std::size_t i = 0; i < 20; i++) // of up to two bytes among four
        for (const char byte : {'\0', '\1', 'a', '\xff'})
            if (keys[i].size() < 2)
                keys.push_back(keys[i] + byte);
    std::map<std::string, std::string> model;
    Database database(options);
    for (std::size_t turn = 0; turn < 2; turn++) // a new version, and here and there a deletion
        for (std::size_t i = 0; i < keys.size(); i++) {
            Transaction by = database.begin();
            const bool is_kept = turn == 0 || i % 3 != 0;
            if (is_kept)
                by.put(keys[i], model[keys[i]] = std::to_string(turn * 100 + i));
            else
                by.erase(keys[i]);
            if (!is_kept)
                model.erase(keys[i]);
            expect(database.commit(by).has_value(), "a write alone");
        }
    for (int is_dropped = 0; is_dropped < 2; is_dropped++) {
        expect(all(database, Keys::onward("")) == model, "all rows");
        for (const std::string &from : keys) {
            const auto found = model.find(from);
            const auto row = all(database, Keys::one(from));
            expect(row.size() == (found != model.end()), "one key is there or not");
            expect(row.empty() || row.begin()->second == found->second, "one key");
            for (const std::string &to : keys) {
                if (from < to)
                    expect(all(database, Keys::between(from, to)) ==
                               std::map<std::string, std::string>(model.lower_bound(from),
                                                                  model.lower_bound(to)),
                           "rows between two keys");
            }
        }
        database.drop_before(database.now());
    }
}

/// Two transactions read two keys, something happens, and each writes one of them.
void write_skew(const Options &options, const std::string &name,
                const std::function<void(Database &)> &between)
{
    Database database(options);
    put(database, "a", "1");
    put(database, "m", "1");
    for (int is_span = 0; is_span < 2; is_span++) {
        Transaction one = database.begin(), other = database.begin();
        for (Transaction *by : {&one, &other}) {
            if (is_span) {
                expect(database.read(*by, Keys::between("a", "n"))->size() == 2, name);
            } else {
                expect(database.read(*by, Keys::one("a"))->size() == 1, name);
                expect(database.read(*by, Keys::one("m"))->size() == 1, name);
            }
        }
        between(database);
        one.put("a", "2");
        other.put("m", "2");
        expect(database.commit(one).has_value(), name + ": the first commits");
        expect(!database.commit(other), name + ": the second begins anew");
    }
}

/// A key that both found missing is inserted by one.
void phantom(const Options &options)
{
    Database database(options);
    Transaction one = database.begin(), other = database.begin();
    expect(database.read(one, Keys::between("p", "q"))->empty(), "phantom: nothing there");
    expect(database.read(other, Keys::between("p", "q"))->empty(), "phantom: nothing there");
    one.put("p1", "one");
    other.put("p2", "other");
    expect(database.commit(one).has_value(), "phantom: the first commits");
    expect(!database.commit(other), "phantom: the second begins anew");
}

/// After a move a cache that is locked knows which keys were read, and a shared one until when.
void a_write_after_a_move(const Options &options)
{
    Database database(options);
    Transaction reader = database.begin(), writer = database.begin();
    writer.at = reader.at;
    expect(database.read(reader, Keys::one("a"))->empty(), "a read before a move");
    database.move_lease("a");
    writer.put("z", "1");
    const auto at = database.commit(writer);
    expect(at && (*at == reader.at) == (options.form == Form::Locked), "a write after a move");
}

/// A transaction sees its own writes, and nobody else does before it commits.
void own_writes(const Options &options)
{
    Database database(options);
    put(database, "o1", "1");
    put(database, "o2", "2");
    Transaction by = database.begin();
    by.erase("o1");
    by.put("o3", "3");
    by.put("o2", "22");
    const auto rows = database.read(by, Keys::between("o", "p")).value();
    expect(rows.size() == 2 && rows[0].value == "22" && rows[1].value == "3", "own writes");
    expect(all(database, Keys::between("o", "p")).size() == 2, "writes of others");
    expect(all(database, Keys::one("o1")).size() == 1, "a deletion of others");
    expect(database.commit(by).has_value(), "own writes commit");
    expect(all(database, Keys::one("o1")).empty(), "a deletion");
}

/// What was there is there again, in the same ranges, and later times go on above all earlier ones.
void opened_again(const Options &options)
{
    std::optional<Time> last;
    {
        Database database(options);
        database.split("g");
        Transaction by = database.begin();
        by.put("kept", "yes");
        last = database.commit(by);
    }
    Database database(options);
    expect(all(database, Keys::one("kept")).size() == 1, "a value is kept");
    expect(database.ranges() > 1, "ranges are kept");
    Transaction by = database.begin();
    expect(last && *last < by.at, "time goes on");
    by.at = *last; // as if it had begun before
    by.put("new", "1");
    const auto at = database.commit(by);
    expect(at && database.begin().at >= *at && *at > *last, "a late write is pushed");
}

/// A time before the threshold is refused, also by who opens the store later.
void dropped_versions(const Options &options)
{
    Time early;
    const auto is_refused = [&](Database &database) {
        Transaction by = database.begin();
        by.at = early;
        return !database.read(by, Keys::one("kept"));
    };
    {
        Database database(options);
        put(database, "kept", "1");
        early = database.now();
        put(database, "kept", "2");
        expect(!is_refused(database), "an early time");
        Time threshold = database.now();
        while (!(early < threshold)) // within one tick all times are one
            threshold = database.now();
        database.drop_before(threshold);
        expect(is_refused(database), "a time before the threshold");
    }
    Database database(options);
    expect(is_refused(database), "a time before the threshold of another process");
}

} // namespace

int main(int count, char **words)
{
    if (count != 2 || !std::filesystem::create_directories(words[1])) {
        std::cerr << "usage: test_store FOLDER, which is made\n";
        return 2;
    }
    for (const Form form : {Form::Locked, Form::Seats}) {
        int number = 0;
        const auto fresh = [&] {
            Options options;
            options.folder = std::string(words[1]) + (form == Form::Seats ? "/seats" : "/locked") +
                             std::to_string(number++);
            options.form = form;
            return options;
        };
        keys_of_any_bytes(fresh());
        write_skew(fresh(), "nothing", [](Database &) {});
        write_skew(fresh(), "a lease moves", [](Database &it) { it.move_lease("a"); });
        write_skew(fresh(), "a holder is gone", [](Database &it) { it.crash("m"); });
        write_skew(fresh(), "a range splits", [](Database &it) { it.split("c"); });
        write_skew(fresh(), "all of them", [](Database &it) {
            it.split("b");
            it.move_lease("m");
            it.crash("a");
            it.split("m");
            it.move_lease("a");
        });
        phantom(fresh());
        a_write_after_a_move(fresh());
        own_writes(fresh());
        opened_again(fresh());
        dropped_versions(fresh());
    }
    std::cout << passed << " passed, " << failed << " failed\n";
    return failed != 0;
}
