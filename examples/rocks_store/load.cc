/// The load on the store: clients in threads that call it, and record what they were answered.
///
///     rocks_store --dir DIR --log LOG --mix list --threads 4 --seconds 20 --keys 20 --ranges 4
///
/// It opens what is in DIR, puts keys there if there are none, and calls for some seconds. The last
/// line on standard output counts what was done, as JSON. docs/STORE.md lists the words.
#include "database.hpp"
#include "mixes.hpp"
#include "power_cut.hpp"
#include "record.hpp"

#include <cstdlib>
#include <cstring>
#include <iostream>
#include <thread>

#include <sys/resource.h>
#include <unistd.h>

namespace rocks_store {
namespace {

using namespace std::chrono;

struct Settings {
    Options store;
    std::string log, mix = "A", distribution = "zipfian";
    std::size_t threads = 2;
    double seconds = 10;
    std::uint64_t keys = 1000, ranges = 1, seed = 1, first_value = 1;
};

struct Counts {
    std::atomic<std::uint64_t> calls{0}, commits{0}, aborts{0}, restarts{0}, unknown{0};
    std::atomic<std::int64_t> nanoseconds_in_cache{0};
};

/// The numbers of a list, and their count before them, in at least so many bytes.
std::string bytes_of(const List &list, std::size_t least)
{
    const std::uint64_t count = list.size();
    std::string bytes(reinterpret_cast<const char *>(&count), sizeof count);
    bytes.append(reinterpret_cast<const char *>(list.data()), count * sizeof count);
    bytes.resize(std::max(bytes.size(), least));
    return bytes;
}

List list_of(const std::string &bytes)
{
    std::uint64_t count = 0;
    std::memcpy(&count, bytes.data(), sizeof count);
    List list(count);
    std::memcpy(list.data(), bytes.data() + sizeof count, count * sizeof count);
    return list;
}

/// A call with what it is answered.
std::string answered(const Op &op, const std::vector<Row> &rows)
{
    if (op.kind == Op::Read)
        return "[\"read\"," + json(op.key) + ',' +
               json(rows.empty() ? List() : list_of(rows.front().value)) + ']';
    if (op.kind != Op::Scan)
        return json(op);
    std::string lists;
    for (const Row &row : rows)
        lists += (lists.empty() ? "[" : ",[") + json(row.key) + ',' + json(list_of(row.value)) +
                 ']';
    return "[\"scan\"," + json(op.key) + ',' + json(op.to) + ",[" + lists + "]]";
}

class Client {
public:
    Client(Database &database, Load &load, Counts &counts, const std::string &log,
           std::size_t number, std::uint64_t seed)
        : database_(database), load_(load), counts_(counts), record_(log, number),
          mix_(load, seed * 1009 + number), random_(number),
          value_bytes_(load.mix == "list" ? 0 : 100)
    {
    }

    void call_until(steady_clock::time_point end)
    {
        while (steady_clock::now() < end)
            call(mix_.next());
        counts_.nanoseconds_in_cache += time_in_cache.count();
    }

    /// Makes a transaction, anew where another one came between, but not for ever.
    void call(const Plan &plan)
    {
        const std::uint64_t txn = load_.next_number++;
        record_.begin(txn, plan);
        counts_.calls++;
        std::string ops;
        bool is_committed = false;
        try {
            for (int tries = 0; !is_committed && tries < TRIES; tries++) {
                counts_.restarts += tries > 0;
                Transaction by = database_.begin();
                ops.clear();
                is_committed = std::all_of(plan.begin(), plan.end(),
                                           [&](const Op &op) { return make(op, by, ops); }) &&
                               commit(by);
            }
        } catch (const std::exception &fault) { // which may come from within the commit
            std::cerr << fault.what() << '\n';
            counts_.unknown++;
            record_.end(txn, "unknown", ops);
            return;
        }
        (is_committed ? counts_.commits : counts_.aborts)++;
        record_.end(txn, is_committed ? "committed" : "aborted", ops);
    }

private:
    static constexpr int TRIES = 100;

    bool commit(const Transaction &by)
    {
        think();
        return database_.commit(by).has_value();
    }

    /// Now and then a client takes its time, so that others, and crashes, come between its calls.
    void think()
    {
        if (load_.mix == "list" && random_() % 3 == 0)
            std::this_thread::sleep_for(microseconds(random_() % 3000));
    }

    /// Whether it was answered. Adds to the record what was done, if there is one.
    bool make(const Op &op, Transaction &by, std::string &ops)
    {
        think();
        std::vector<Row> rows;
        const auto own = by.writes.find(op.key);
        if (op.kind == Op::Delete) {
            by.erase(op.key);
        } else if (op.kind == Op::Append && own != by.writes.end()) { // it reads its own list
            append(op, own->second ? list_of(*own->second) : List(), by);
        } else {
            auto read = database_.read(by, op.kind == Op::Scan ? Keys::between(op.key, op.to)
                                                               : Keys::one(op.key));
            if (!read)
                return false;
            rows = *std::move(read);
            if (op.kind == Op::Append)
                append(op, rows.empty() ? List() : list_of(rows.front().value), by);
        }
        if (record_.is_kept())
            ops += (ops.empty() ? "" : ",") + answered(op, rows);
        return true;
    }

    void append(const Op &op, List list, Transaction &by) const
    {
        list.push_back(op.value);
        by.put(op.key, bytes_of(list, value_bytes_));
    }

    Database &database_;
    Load &load_;
    Counts &counts_;
    Record record_;
    Mix mix_;
    std::mt19937_64 random_;
    std::size_t value_bytes_;
};

/// Divides ranges, moves leases, lets holders crash and drops old versions, while clients call.
void disturb(Database &database, const Load &load, std::uint64_t seed,
             steady_clock::time_point end)
{
    std::mt19937_64 random(seed);
    while (steady_clock::now() < end) {
        std::this_thread::sleep_for(milliseconds(5 + random() % 30));
        const std::string key = key_name(random() % load.keys);
        const std::uint64_t of_100 = random() % 100;
        if (of_100 < 45) {
            database.move_lease(key);
        } else if (of_100 < 75) {
            database.crash(key);
        } else if (of_100 < 85) {
            if (database.ranges() < load.keys)
                database.split(key);
        } else {
            Time threshold = database.now();
            threshold.wall -= static_cast<std::uint64_t>(nanoseconds(milliseconds(500)).count());
            database.drop_before(threshold);
        }
    }
}

/// Puts a value to each key, and divides the keys among the ranges, where the folder was empty.
void fill(Database &database, Load &load, Counts &counts, const Settings &settings)
{
    for (std::uint64_t i = 1; i < settings.ranges; i++)
        database.split(key_name(i * load.keys / settings.ranges));
    if (load.mix == "list")
        return;
    Transaction look = database.begin();
    if (!database.read(look, Keys::onward("")).value().empty())
        return;
    Client client(database, load, counts, settings.log, 0, settings.seed);
    for (std::uint64_t i = 0; i < load.keys;) {
        Plan plan;
        for (; plan.size() < 100 && i < load.keys; i++)
            plan.push_back({Op::Append, key_name(i), {}, load.next_number++});
        client.call(plan);
    }
}

std::uint64_t property(Database &database, const char *name)
{
    std::uint64_t number = 0;
    database.engine().GetIntProperty(name, &number);
    return number;
}

double processor_seconds()
{
    rusage used = {};
    getrusage(RUSAGE_SELF, &used);
    const auto seconds = [](const timeval &time) {
        return static_cast<double>(time.tv_sec) + static_cast<double>(time.tv_usec) / 1e6;
    };
    return seconds(used.ru_utime) + seconds(used.ru_stime);
}

/// Tells each second at a terminal how the load goes on.
void show_progress(const Counts &counts, steady_clock::time_point begin,
                   steady_clock::time_point end)
{
    std::uint64_t last = 0;
    for (int second = 1; begin + seconds(second) < end; second++) {
        std::this_thread::sleep_until(begin + seconds(second));
        const std::uint64_t calls = counts.calls;
        std::cerr << "\r\033[K" << second << " s: " << calls - last << " calls a second, "
                  << counts.restarts << " restarts, " << counts.aborts << " aborts"
                  << std::flush;
        last = calls;
    }
    std::cerr << "\r\033[K";
}

/// A thread that ends the process where it fails, since a load without it says less than it seems.
template <class Work> std::thread thread_of(Work work)
{
    return std::thread([=] {
        try {
            work();
        } catch (const std::exception &fault) {
            std::cerr << std::string("rocks_store: ") + fault.what() + '\n' << std::flush;
            std::_Exit(1);
        }
    });
}

/// Calls from all threads for some seconds, and returns how long that took.
double call(Database &database, Load &load, Counts &counts, const Settings &settings)
{
    const auto begin = steady_clock::now();
    const auto end = begin + duration_cast<nanoseconds>(duration<double>(settings.seconds));
    std::vector<std::thread> threads;
    for (std::size_t i = 0; i < settings.threads; i++)
        threads.push_back(thread_of([&, i, end] {
            Client(database, load, counts, settings.log, i, settings.seed).call_until(end);
        }));
    if (settings.mix == "list")
        threads.push_back(thread_of([&, end] { disturb(database, load, settings.seed, end); }));
    if (isatty(STDERR_FILENO))
        show_progress(counts, begin, end);
    for (std::thread &thread : threads)
        thread.join();
    return duration<double>(steady_clock::now() - begin).count();
}

void run(Settings settings)
{
    std::unique_ptr<rocksdb::Env> layer;
    if (settings.mix == "list" || settings.store.flaw == Flaw::NoSync) {
        layer = with_power_cuts();
        settings.store.env = layer.get();
    }
    Database database(settings.store);
    const Draw draw(settings.keys, settings.distribution == "zipfian");
    Load load = {settings.mix, settings.keys, draw, settings.first_value};
    Counts filled, counts;
    fill(database, load, filled, settings);

    const double before = processor_seconds();
    const double took = call(database, load, counts, settings);
    const double used = processor_seconds() - before;
    const double in_cache = static_cast<double>(counts.nanoseconds_in_cache) / 1e9;
    std::cout << "{\"mix\":" << json(settings.mix) << ",\"threads\":" << settings.threads
              << ",\"calls\":" << counts.calls << ",\"commits\":" << counts.commits
              << ",\"aborts\":" << counts.aborts << ",\"unknown\":" << counts.unknown
              << ",\"restarts\":" << counts.restarts
              << ",\"calls_per_second\":" << static_cast<double>(counts.calls) / took
              << ",\"processor_seconds\":" << used << ",\"cache_seconds\":" << in_cache
              << ",\"cache_share\":" << in_cache / used
              << ",\"cache_bytes\":" << database.memory_of_caches()
              << ",\"block_cache_bytes\":" << property(database, "rocksdb.block-cache-usage")
              << ",\"memtable_bytes\":" << property(database, "rocksdb.cur-size-all-mem-tables")
              << ",\"next_value\":" << load.next_number << "}\n";
}

std::uint64_t number(const std::string &text)
{
    if (text.empty() || text.size() > 18 ||
        text.find_first_not_of("0123456789") != std::string::npos)
        throw std::invalid_argument(text + " is no number, or too great");
    return std::stoull(text);
}

double decimal(const std::string &text)
{
    char *end = nullptr;
    const double value = std::strtod(text.c_str(), &end);
    if (text.empty() || *end != 0 || !(value >= 0 && value <= 1e6))
        throw std::invalid_argument(text + " is no number of seconds");
    return value;
}

Flaw flaw(const std::string &name)
{
    static const std::map<std::string, Flaw> flaws = {
        {"reads-not-remembered", Flaw::ReadsNotRemembered},
        {"writes-do-not-ask", Flaw::WritesDoNotAsk},
        {"own-answer-trap", Flaw::OwnAnswerTrap},
        {"no-refresh", Flaw::NoRefresh},
        {"no-low-water-after-crash", Flaw::NoLowWaterAfterCrash},
        {"lease-without-summary", Flaw::LeaseWithoutSummary},
        {"no-sync", Flaw::NoSync},
    };
    const auto found = flaws.find(name);
    if (found == flaws.end())
        throw std::invalid_argument("there is no flaw " + name);
    return found->second;
}

Settings settings_of(int count, char **words)
{
    Settings to;
    if (count % 2 == 0)
        throw std::invalid_argument("each word needs a value");
    for (int i = 1; i < count; i += 2) {
        const std::string word = words[i], value = words[i + 1];
        if (word == "--dir") to.store.folder = value;
        else if (word == "--log") to.log = value;
        else if (word == "--mix") to.mix = value;
        else if (word == "--distribution") to.distribution = value;
        else if (word == "--threads") to.threads = number(value);
        else if (word == "--seconds") to.seconds = decimal(value);
        else if (word == "--keys") to.keys = number(value);
        else if (word == "--ranges") to.ranges = number(value);
        else if (word == "--seed") to.seed = number(value);
        else if (word == "--first-value") to.first_value = number(value);
        else if (word == "--flaw") to.store.flaw = flaw(value);
        else if (word == "--form" && value == "locked") to.store.form = Form::Locked;
        else if (word == "--form" && value == "seats") to.store.form = Form::Seats;
        else throw std::invalid_argument("unknown: " + word + ' ' + value);
    }
    const bool is_mix = to.mix == "list" || (to.mix.size() == 1 && to.mix >= "A" && to.mix <= "F");
    const bool are_keys = 0 < to.keys && to.keys <= MOST_KEYS;
    if (to.store.folder.empty() || !is_mix || !are_keys || to.threads == 0 || to.ranges == 0 ||
        (to.distribution != "zipfian" && to.distribution != "uniform"))
        throw std::invalid_argument("a word is missing, or has no such value");
    return to;
}

} // namespace
} // namespace rocks_store

int main(int count, char **words)
{
    rocks_store::Settings settings;
    try {
        settings = rocks_store::settings_of(count, words);
    } catch (const std::exception &fault) {
        std::cerr << "rocks_store: " << fault.what()
                  << "\nusage: rocks_store --dir DIR [--log LOG] [--mix A|B|C|D|E|F|list]\n"
                     "    [--distribution zipfian|uniform] [--threads N] [--seconds S] [--keys K]\n"
                     "    [--ranges R] [--seed X] [--form locked|seats] [--first-value V]\n"
                     "    [--flaw NAME]\n";
        return 2;
    }
    try {
        rocks_store::run(std::move(settings));
    } catch (const std::exception &fault) {
        std::cerr << "rocks_store: " << fault.what() << '\n';
        return 1;
    }
}
