/// Plays the rows of bindings/rows.txt, whose head says what they are, on a cache, by one seat of a
/// shared cache, and by three seats in turn. It says at the end `N passed, M failed`.
#include "tscache.hpp"

#include <algorithm>
#include <cctype>
#include <chrono>
#include <fstream>
#include <iostream>
#include <iterator>
#include <map>
#include <memory>
#include <sstream>
#include <stdexcept>
#include <string>
#include <vector>

using namespace tscache;

namespace {

using Words = std::vector<std::string>;

/// Something that no row tells of, and that has to hold.
void require(bool holds, const std::string &what)
{
    if (!holds)
        throw std::runtime_error(what);
}

std::uint32_t small(const std::string &text)
{
    return static_cast<std::uint32_t>(std::stoull(text));
}

std::size_t count_or(const std::string &text, std::size_t other)
{
    return std::isdigit(static_cast<unsigned char>(text[0])) ? std::stoull(text) : other;
}

std::string key_of(const std::string &text)
{
    std::string key;
    for (std::size_t at = 0; at < text.size();) {
        char byte = text[at++];
        if (byte == '%') {
            byte = static_cast<char>(std::stoi(text.substr(at, 2), nullptr, 16));
            at += 2;
        }
        std::size_t times = 1, digits = 0;
        if (at < text.size() && text[at] == '*') {
            times = std::stoul(text.substr(at + 1), &digits);
            at += 1 + digits;
        }
        key.append(times, byte);
    }
    return key;
}

/// A span with keys of its own.
struct Keys {
    explicit Keys(const std::string &text)
    {
        const std::string inner = text.substr(1, text.size() - 2);
        const std::size_t comma = inner.find(','), dots = inner.find("..");
        from = key_of(inner.substr(0, std::min(comma, dots)));
        to = comma == inner.npos ? "" : key_of(inner.substr(comma + 1));
        const Ends first = text[0] == '(' ? Ends::ExcludeFrom : Ends::IncludeBoth;
        const Ends both = text[0] == '(' ? Ends::ExcludeBoth : Ends::ExcludeTo;
        span = dots != inner.npos    ? Span::onward(from, first)
               : comma == inner.npos ? Span::point(from)
                                     : Span::range(from, to, text.back() == ')' ? both : first);
    }
    Keys(const Keys &) = delete;
    Keys &operator=(const Keys &) = delete;

    std::string from, to;
    Span span = Span::point("");
};

Time time_of(const std::string &text)
{
    return {std::stoull(text), small(text.substr(text.find('.') + 1))};
}

Owner owner_of(const std::string &text)
{
    Owner::Bytes bytes;
    bytes.fill(static_cast<std::uint8_t>(text[0]));
    return text == "-" ? Owner() : bytes;
}

/// What calls answer, as the rows say it.

std::string told(bool is_so) { return is_so ? "yes" : "no"; }
std::string told(const std::string &bytes) { return std::to_string(bytes.size()); }

std::string told(Time time)
{
    return std::to_string(time.wall) + "." + std::to_string(time.logical);
}

std::string told(const Value &value)
{
    const std::string name(1, value.owner ? static_cast<char>((*value.owner)[0]) : '-');
    require(value.owner == owner_of(name), "the bytes of an owner");
    return told(value.time) + " " + name;
}

std::string told(const Added &added)
{
    std::ostringstream text;
    text << added.kept << " " << added.rotated << " " << added.evicted;
    return text.str();
}

std::string told(const Figures &figures)
{
    std::ostringstream text;
    text << figures.pages << " " << figures.rotations << " " << figures.nodes << " "
         << figures.bytes;
    return text.str();
}

std::string told(Error error)
{
    static const std::map<Error, std::string> NAMES = {
        {Error::Time, "time"},
        {Error::KeyTooLong, "key_too_long"},
        {Error::Inverted, "inverted"},
        {Error::TooLarge, "too_large"},
        {Error::PageSize, "page_size"},
        {Error::MinPages, "min_pages"},
        {Error::Retention, "retention"},
        {Error::Seats, "seats"},
        {Error::Busy, "busy"},
        {Error::Full, "full"},
        {Error::NoTime, "none"},
        {Error::SummaryVersion, "summary_version"},
        {Error::SummaryLength, "summary_length"},
        {Error::SummaryChecksum, "summary_checksum"},
        {Error::SummaryForm, "summary_form"},
        {Error::Tries, "tries"},
        {Error::Stripes, "stripes"},
        {Error::Bounds, "bounds"},
    };
    const auto found = NAMES.find(error);
    return found == NAMES.end() ? text(error) : found->second;
}

template <class T> std::string told(const Result<T> &result)
{
    return result.ok() ? told(result.value()) : told(result.error());
}

/// What a case is played on: a cache where there are no seats.
struct Table {
    explicit Table(std::size_t seats) : count(seats) {}

    std::size_t count;
    Cache cache;
    Shared shared;
    std::vector<Seat> seats;
    std::uint32_t tries = TRIES;
    std::size_t turn = 0;
    /// The Adds of each seat in stripes, and else of all.
    std::vector<std::uint64_t> adds = {0};
    std::map<std::string, std::string> summaries;

    /// The Adds that the seat counts whose turn it was.
    std::uint64_t &own() { return adds.at((turn + count - 1) % count % adds.size()); }
};

/// What an answer says beside where it comes from: a seat has seen all Adds, and the next Add has
/// the next place.

template <class T> Result<T> plain(Table &, Result<T> result) { return result; }

template <class T> Result<T> plain(Table &table, Result<Seen<T>> result)
{
    if (!result.ok())
        return result.error();
    require(result.value().seen == table.own(), "what a seat has seen");
    return result.value().answer;
}

Result<Added> plain(Table &table, Result<Placed> result)
{
    if (!result.ok())
        return result.error();
    require(result.value().place == table.own()++, "the place of an Add");
    return result.value().added;
}

/// Calls the cache, or the seat whose turn it is.
template <class Call> auto ask(Table &table, Call call)
{
    if (table.count == 0)
        return plain(table, call(table.cache));
    return plain(table, call(table.seats.at(table.turn++ % table.count)));
}

/// A call of a seat takes its tries besides.
auto add(Cache &cache, const Table &, const Span &span, const Value &value, Time now)
{
    return cache.add(span, value, now);
}
auto add(Seat &seat, const Table &table, const Span &span, const Value &value, Time now)
{
    return seat.add(span, value, now, table.tries);
}
auto add_all(Cache &cache, const Table &, View<Mark> marks, Time now)
{
    return cache.add_all(marks, now);
}
auto add_all(Seat &seat, const Table &table, View<Mark> marks, Time now)
{
    return seat.add_all(marks, now, table.tries);
}

Config config_of(const Words &words)
{
    Config config;
    config.page_first = small(words[1]);
    config.page_max = small(words[2]);
    config.min_pages = small(words[3]);
    config.retention = std::chrono::nanoseconds(std::stoull(words[4]));
    config.low_water = time_of(words[5]);
    return config;
}

/// Takes all seats of a cache, and goes on with them.
std::string go_on(Table &table, Result<Shared> shared)
{
    if (!shared.ok())
        return told(shared.error());
    table.shared = std::move(shared).value();
    for (std::size_t i = 0; i < table.count; i++)
        table.seats.push_back(table.shared.seat().value());
    return "done";
}

std::string open(Table &table, const Words &words)
{
    const Config config = config_of(words);
    table.seats.clear();
    table.turn = 0;
    table.adds = {0};
    if (table.count == 0) {
        auto cache = Cache::open(config);
        const Error error = cache.error();
        table.cache = cache.ok() ? std::move(cache).value() : Cache();
        return error == Error::None ? "done" : told(error);
    }
    const std::uint32_t seats = small(std::to_string(table.count));
    return go_on(table, Shared::open(config, seats, std::stoull(words[6])));
}

/// Opens a cache in stripes. Behind the settings stands a bound each.
std::string stripes(Table &table, const Words &words)
{
    std::vector<std::string> keys;
    for (std::size_t i = 6; i < words.size(); i++)
        keys.push_back(Keys(words[i]).from);
    const std::vector<std::string_view> bounds(keys.begin(), keys.end());
    table.seats.clear();
    table.turn = 0;
    table.adds.assign(table.count, 0);
    const std::uint32_t seats = small(std::to_string(table.count));
    return go_on(table, Shared::open_striped(config_of(words), bounds, seats));
}

/// Opens a shared cache with so many seats, takes them and closes it.
std::string seats(Table &, const Words &words)
{
    auto shared = Shared::open(Config(), small(words[1]));
    if (!shared.ok())
        return told(shared.error());
    std::vector<Seat> all;
    for (std::size_t i = 0; i < small(words[1]); i++)
        all.push_back(shared.value().seat().value());
    require(shared.value().seat().error() == Error::StillOut, "one seat more");
    require(shared.value().close().error() == Error::StillOut, "a cache with its seats out");
    all.clear();
    require(shared.value().close().value() == 0, "no Adds");
    return "done";
}

/// When a write may be made, and whether at once: it may just where that is its own time, and it
/// may at the time that is told.
std::string ask_write(Table &table, const Words &words)
{
    const Time at = time_of(words[1]);
    const Owner by = owner_of(words[2]);
    std::vector<std::unique_ptr<Keys>> keys;
    std::vector<Span> spans;
    for (std::size_t i = 3; i < words.size(); i++) {
        keys.push_back(std::make_unique<Keys>(words[i]));
        spans.push_back(keys.back()->span);
    }
    auto earliest = ask(table, [&](auto &of) { return of.earliest_write(spans, at, by); });
    auto may = [&](Time then) {
        return ask(table, [&](auto &of) { return of.may_write(spans, then, by); });
    };
    if (earliest.ok()) {
        require(may(at).value() == (earliest.value() == at), "whether it may be made at once");
        require(may(earliest.value()).value(), "whether it may be made at the time told");
    } else if (earliest.error() == Error::NoTime) {
        require(!may(at).value(), "whether it may be made where there is no time");
    } else {
        require(may(at).error() == earliest.error(), "one refusal");
    }
    return words[0] == "earliest" ? told(earliest) : told(may(at));
}

std::string batch(Table &table, const Words &words)
{
    std::vector<std::unique_ptr<Keys>> keys;
    std::vector<Mark> marks;
    for (std::size_t i = 2; i + 2 < words.size(); i += 3) {
        keys.push_back(std::make_unique<Keys>(words[i]));
        marks.push_back({keys.back()->span, {time_of(words[i + 1]), owner_of(words[i + 2])}});
    }
    const Time now = time_of(words[1]);
    return told(ask(table, [&](auto &of) { return add_all(of, table, marks, now); }));
}

std::string summary(Table &table, const Words &words)
{
    const Keys keys(words[2]);
    const std::size_t most = count_or(words[3], SIZE_MAX);
    auto bytes = ask(table, [&](auto &of) { return of.summary(keys.span, most); });
    if (bytes.ok())
        table.summaries[words[1]] = bytes.value();
    return told(bytes);
}

/// What several summaries are answered, if that is one answer.
std::string alike(Table &table, const std::vector<std::string> &all, Time now)
{
    const std::string first = told(table.cache.apply(all.at(0), now));
    for (const std::string &bytes : all)
        require(told(table.cache.apply(bytes, now)) == first, "one answer");
    return first;
}

std::string cuts(Table &table, const Words &words)
{
    const std::string &whole = table.summaries.at(words[1]);
    std::vector<std::string> all = {whole + '\0'};
    for (std::size_t length = 0; length < whole.size(); length++)
        all.push_back(whole.substr(0, length));
    return alike(table, all, time_of(words[2]));
}

std::string changes(Table &table, const Words &words)
{
    const std::string &whole = table.summaries.at(words[1]);
    const std::size_t last = count_or(words[3], whole.size() - 1);
    std::vector<std::string> all;
    for (std::size_t place = std::stoull(words[2]); place <= last; place++) {
        for (const int with : {0x01, 0x10, 0x80, 0xFF}) {
            all.push_back(whole);
            all.back()[place] = static_cast<char>(all.back()[place] ^ with);
        }
    }
    return alike(table, all, time_of(words[4]));
}

std::string take(Table &table, const Words &words)
{
    std::string &bytes = table.summaries[words[1]] = "";
    for (std::size_t at = 0; at < words[2].size(); at += 2)
        bytes.push_back(static_cast<char>(std::stoi(words[2].substr(at, 2), nullptr, 16)));
    return "done";
}

using Verb = std::string (*)(Table &, const Words &);

const std::map<std::string, Verb> VERBS = {
    {"open", open},
    {"stripes", stripes},
    {"seats", seats},
    {"may", ask_write},
    {"earliest", ask_write},
    {"batch", batch},
    {"summary", summary},
    {"cuts", cuts},
    {"changes", changes},
    {"take", take},
    {"tries",
     [](Table &table, const Words &words) -> std::string {
         table.tries = small(words[1]);
         return "done";
     }},
    {"add",
     [](Table &table, const Words &words) {
         const Keys keys(words[1]);
         const Value value = {time_of(words[2]), owner_of(words[3])};
         const Time now = time_of(words[4]);
         return told(ask(table, [&](auto &of) { return add(of, table, keys.span, value, now); }));
     }},
    {"get",
     [](Table &table, const Words &words) {
         const Keys keys(words[1]);
         return told(ask(table, [&](auto &of) { return of.get_max(keys.span); }));
     }},
    {"low",
     [](Table &table, const Words &) {
         return told(ask(table, [](auto &of) { return of.low_water(); }));
     }},
    {"figures",
     [](Table &table, const Words &) {
         return told(ask(table, [](auto &of) { return of.figures(); }));
     }},
    {"same",
     [](Table &table, const Words &words) {
         return told(table.summaries.at(words[1]) == table.summaries.at(words[2]));
     }},
    {"apply",
     [](Table &table, const Words &words) {
         return told(table.cache.apply(table.summaries.at(words[1]), time_of(words[2])));
     }},
};

/// Plays a row, and says what was answered in place of what stands there.
std::string played(Table &table, const Words &words)
{
    try {
        return VERBS.at(words[0])(table, words);
    } catch (const std::exception &why) {
        return why.what();
    }
}

struct Counts {
    int passed = 0, failed = 0;
};

void play(std::size_t seats, Counts &counts)
{
    Table table(seats);
    bool is_played = false;
    std::ifstream file(ROWS);
    std::string line;
    for (int number = 1; std::getline(file, line); number++) {
        const std::size_t equals = line.find(" =");
        std::istringstream text(line.substr(0, equals));
        Words words{std::istream_iterator<std::string>(text), {}};
        if (words.empty() || line[0] == '#')
            continue;
        if (equals == line.npos) { // the name of a case
            table = Table(seats);
            is_played = words[0] != (seats == 0 ? "seats" : "cache");
        } else if (is_played) {
            if (words[0] == "seat") {
                table.turn = std::stoull(words.at(1));
                words.erase(words.begin(), words.begin() + 2);
            }
            const std::string answer = played(table, words);
            const bool is_right = " = " + answer == line.substr(equals);
            (is_right ? counts.passed : counts.failed)++;
            if (!is_right)
                std::cout << "rows.txt:" << number << ", " << seats << " seats: " << answer << ": "
                          << line << "\n";
        }
    }
}

} // namespace

int main()
{
    Counts counts;
    for (const std::size_t seats : {0, 1, 3})
        play(seats, counts);
    std::cout << counts.passed << " passed, " << counts.failed << " failed\n";
    return counts.failed != 0;
}
