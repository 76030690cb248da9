/// Tests what tscache.hpp adds to tscache.h: owners that move, results, spans, how much memory it
/// takes, and seats in threads. It says at the end `N passed, M failed`.
#include "tscache.hpp"

#include <array>
#include <atomic>
#include <cstdlib>
#include <cstring>
#include <iostream>
#include <new>
#include <set>
#include <string>
#include <thread>
#include <type_traits>
#include <utility>
#include <vector>

using namespace tscache;

// What the compiler looks at: a program that breaks one of these lines is none.

template <class Of>
constexpr bool MOVES_ALONE =
    !std::is_copy_constructible_v<Of> && !std::is_copy_assignable_v<Of> &&
    std::is_nothrow_move_constructible_v<Of> && std::is_nothrow_move_assignable_v<Of> &&
    std::is_nothrow_default_constructible_v<Of> && std::is_nothrow_destructible_v<Of>;
static_assert(MOVES_ALONE<Cache> && MOVES_ALONE<Seat> && MOVES_ALONE<Shared>);
static_assert(!std::is_copy_constructible_v<Result<Cache>>);

template <class Of> constexpr bool LIES_APART = alignof(Of) >= 128 && sizeof(Of) % 128 == 0;
static_assert(LIES_APART<Cache> && LIES_APART<Seat> && LIES_APART<Shared>);

// An answer is not taken for a yes, and a time is not made up.
static_assert(!std::is_constructible_v<bool, Result<bool>>);
static_assert(!std::is_constructible_v<bool, Result<Time>>);

static_assert(sizeof(Owner) == 16 && std::is_trivially_copyable_v<Owner>);
static_assert(std::is_constructible_v<bool, Owner> && !std::is_convertible_v<Owner, bool>);
static_assert(Time{20, 1} == Time{20, 1} && Time{20, 1} != Time{20, 2} && Time{1} != Time{2});
static_assert(Time{20, 9} < Time{21} && Time{20, 1} < Time{20, 2} && !(Time{20} < Time{20}));
static_assert(Time{21} > Time{20, 9} && Time{20} <= Time{20} && Time{20} >= Time{20});
static_assert(!(Time{21} <= Time{20, 9}) && !(Time{20} >= Time{20, 1}) && !(Time{5} > Time{5}));

// No span is made of a temporary string.
template <class Key> using PointOf = decltype(Span::point(std::declval<Key>()));
template <class Key> using OnwardOf = decltype(Span::onward(std::declval<Key>()));
template <class From, class To>
using RangeOf = decltype(Span::range(std::declval<From>(), std::declval<To>(), Ends::IncludeBoth));
template <class, template <class...> class Made, class... Keys> struct IsMade : std::false_type {
};
template <template <class...> class Made, class... Keys>
struct IsMade<std::void_t<Made<Keys...>>, Made, Keys...> : std::true_type {
};
template <template <class...> class Made, class... Keys>
constexpr bool IS_MADE = IsMade<void, Made, Keys...>::value;
using Name = std::string &;
using Chars = std::string_view;
static_assert(IS_MADE<PointOf, Name> && IS_MADE<PointOf, Chars> && IS_MADE<PointOf, const char *>);
static_assert(IS_MADE<PointOf, const std::string &> && IS_MADE<OnwardOf, Name>);
static_assert(IS_MADE<RangeOf, Name, Name> && IS_MADE<RangeOf, const char *, Chars>);
static_assert(!IS_MADE<PointOf, std::string> && !IS_MADE<PointOf, const std::string>);
static_assert(!IS_MADE<OnwardOf, std::string> && !IS_MADE<RangeOf, std::string, std::string>);
static_assert(!IS_MADE<RangeOf, Name, std::string> && !IS_MADE<RangeOf, std::string, Name>);
static_assert(!IS_MADE<RangeOf, Chars, std::string> && !IS_MADE<RangeOf, std::string, Chars>);
static_assert(Span::point("a").from() == "a" && Span::range("a", "b").ends() == TSC_EXCLUDE_TO);

// Memory that the program takes by `new`, as all of this header does.

namespace {

std::atomic<std::size_t> taken, given;
std::atomic<bool> refuses;

void *take(std::size_t size, std::size_t align)
{
    if (refuses)
        return nullptr;
    taken++;
    return std::aligned_alloc(align, (size + align - 1) / align * align);
}

void *take_or_throw(std::size_t size, std::size_t align)
{
    if (void *at = take(size, align))
        return at;
    throw std::bad_alloc();
}

void give(void *at) noexcept
{
    given += at != nullptr;
    std::free(at);
}

constexpr std::size_t ALIGN = __STDCPP_DEFAULT_NEW_ALIGNMENT__;

} // namespace

void *operator new(std::size_t size) { return take_or_throw(size, ALIGN); }
void *operator new[](std::size_t size) { return take_or_throw(size, ALIGN); }
void *operator new(std::size_t size, const std::nothrow_t &) noexcept { return take(size, ALIGN); }
void *operator new[](std::size_t size, const std::nothrow_t &) noexcept
{
    return take(size, ALIGN);
}
void *operator new(std::size_t size, std::align_val_t align)
{
    return take_or_throw(size, static_cast<std::size_t>(align));
}
void operator delete(void *at) noexcept { give(at); }
void operator delete[](void *at) noexcept { give(at); }
void operator delete(void *at, std::size_t) noexcept { give(at); }
void operator delete[](void *at, std::size_t) noexcept { give(at); }
void operator delete(void *at, std::align_val_t) noexcept { give(at); }
void operator delete(void *at, std::size_t, std::align_val_t) noexcept { give(at); }

namespace {

int passed, failed;

void expect(bool holds, int line, const char *what)
{
    (holds ? passed : failed)++;
    if (!holds)
        std::cout << "test_owners.cc:" << line << ": " << what << "\n";
}
#define CHECK(...) expect((__VA_ARGS__), __LINE__, #__VA_ARGS__)

const Owner ONE = Owner::Bytes{0x11, 0, 0, 0, 0, 0, 0, 0, 0, 0, 0, 0, 0, 0, 0, 0x11},
            TWO = Owner::Bytes{0x22};
const Value READ = {{20}, ONE};
const Time NOW = {20}, LAST = {INT64_MAX, INT32_MAX};

Config low_at_5()
{
    Config config;
    config.low_water = {5};
    return config;
}

Cache opened() { return Cache::open(low_at_5()).value(); }

/// Whether a call throws this refusal, with its text.
template <class Call> bool throws(Error error, Call call)
{
    try {
        call();
    } catch (const Refusal &refusal) {
        return refusal.error() == error && refusal.what() == std::string(text(error));
    }
    return false;
}

/// Whether each call of a cache is refused as closed.
bool is_closed(Cache &cache)
{
    const Span span = Span::point("a");
    return cache.add(span, READ, NOW).error() == Error::Closed &&
           cache.add_all({{span, READ}}, NOW).error() == Error::Closed &&
           cache.get_max(span).error() == Error::Closed &&
           cache.earliest_write(span, {15}, ONE).error() == Error::Closed &&
           cache.may_write(span, {15}, ONE).error() == Error::Closed &&
           cache.low_water().error() == Error::Closed &&
           cache.figures().error() == Error::Closed &&
           cache.summary(span).error() == Error::Closed &&
           cache.apply("", NOW).error() == Error::Closed;
}

bool is_closed(Seat &seat)
{
    const Span span = Span::point("a");
    return seat.add(span, READ, NOW).error() == Error::Closed &&
           seat.add_all({{span, READ}}, NOW).error() == Error::Closed &&
           seat.get_max(span).error() == Error::Closed &&
           seat.earliest_write(span, {15}, ONE).error() == Error::Closed &&
           seat.may_write(span, {15}, ONE).error() == Error::Closed &&
           seat.low_water().error() == Error::Closed && seat.figures().error() == Error::Closed &&
           seat.summary(span).error() == Error::Closed;
}

bool is_closed(Shared &shared)
{
    return shared.seat().error() == Error::Closed && shared.close().error() == Error::Closed &&
           shared.seat().error() == Error::Closed;
}

/// What was moved from answers nothing any more, also where the memory that it had is free.
void caches_move()
{
    const Span span = Span::point("a");
    Cache nothing, cache = opened();
    CHECK(is_closed(nothing));
    cache.add(span, READ, NOW).value();
    Cache other = std::move(cache);
    CHECK(is_closed(cache) && other.get_max(span).value() == READ);
    cache = std::move(other);
    CHECK(is_closed(other) && cache.get_max(span).value() == READ);
    other = opened();
    CHECK(other.get_max(span).value() == Value{{5}, {}});
    std::swap(cache, other);
    CHECK(other.get_max(span).value() == READ && cache.get_max(span).value().time == Time{5});
    Cache &same = cache;
    cache = std::move(same);
    CHECK(cache.get_max(span).value().time == Time{5});
    cache = std::move(other);
    CHECK(is_closed(other) && cache.get_max(span).value() == READ);
    cache.close();
    CHECK(is_closed(cache) && is_closed(other));
    cache.close();
    cache = opened();
    CHECK(cache.add(span, READ, NOW).value().kept);

    std::vector<Cache> many;
    for (std::uint64_t i = 0; i < 20; i++) {
        many.push_back(opened());
        many.back().add(span, {{30 + i}, ONE}, NOW).value();
    }
    bool is_each_its_own = true;
    for (std::uint64_t i = 0; i < 20; i++)
        is_each_its_own = is_each_its_own && many[i].get_max(span).value().time == Time{30 + i} &&
                          reinterpret_cast<std::uintptr_t>(&many[i]) % 128 == 0;
    CHECK(is_each_its_own);

    std::thread([moved = std::move(cache), span]() mutable {
        moved.add(Span::point("b"), {{21}, TWO}, NOW).value();
        CHECK(moved.get_max(span).value() == READ);
    }).join();
    CHECK(is_closed(cache));
}

void shared_caches_move()
{
    const Span span = Span::point("a");
    Shared nothing, shared = Shared::open(low_at_5(), 3).value();
    Seat none, seat = shared.seat().value();
    CHECK(is_closed(nothing) && is_closed(none));
    seat.add(span, READ, NOW).value();
    Shared other = std::move(shared);
    CHECK(is_closed(shared));
    Seat second = other.seat().value();
    CHECK(second.get_max(span).value().answer == READ);
    CHECK(second.get_max(span).value().seen == 1);
    Seat third = std::move(seat);
    CHECK(is_closed(seat) && third.get_max(span).value().answer == READ);
    seat = std::move(third);
    CHECK(is_closed(third) && seat.get_max(span).value().answer == READ);
    CHECK(other.seat().ok() && other.seat().error() == Error::StillOut);
    CHECK(other.close().error() == Error::StillOut);
    shared = std::move(other);
    Shared &same = shared;
    shared = std::move(same);
    CHECK(is_closed(other) && shared.close().error() == Error::StillOut);
    seat = Seat();
    CHECK(is_closed(seat) && shared.close().error() == Error::StillOut);
    second.close();
    CHECK(is_closed(second) && shared.close().value() == 1);
    CHECK(is_closed(shared));

    // a seat lives on where its cache's owner is gone, and seats that nobody took are closed
    shared = Shared::open(low_at_5(), 2).value();
    seat = shared.seat().value();
    shared = Shared();
    CHECK(seat.add(span, READ, NOW).value().place == 0);
    shared = Shared::open(low_at_5(), 64, 1).value();
    CHECK(shared.close().value() == 0);
    shared = Shared::open(low_at_5(), 2).value();
    second = shared.seat().value();
    CHECK(shared.close().error() == Error::StillOut && shared.seat().error() == Error::StillOut);
    second.close();
    CHECK(shared.close().value() == 0);
}

/// Calls that only read are made again while long batches hold the locks that they need.
void lookups_are_never_busy()
{
    Config config;
    Shared shared = Shared::open_striped(config, std::string_view("b"), 2).value();
    Seat one = shared.seat().value(), other = shared.seat().value();
    std::vector<std::string> keys;
    for (int i = 0; i < 20000; i++)
        keys.push_back((i % 2 ? "a" : "b") + std::to_string(i));
    std::vector<Mark> marks;
    for (const std::string &key : keys)
        marks.push_back({Span::point(key), {{20}, ONE}});
    std::atomic<bool> is_over = false;
    bool are_added = true;
    std::thread thread([&] {
        for (int turn = 0; turn < 30; turn++)
            are_added = one.add_all(marks, {20}, UINT32_MAX).ok() && are_added;
        is_over = true;
    });
    const Span all = Span::onward("");
    std::array<int, 6> wrong = {};
    while (!is_over) {
        wrong[0] += !other.get_max(all).ok();
        wrong[1] += !other.earliest_write(all, {}, TWO).ok();
        wrong[2] += !other.may_write(all, {}, TWO).ok();
        wrong[3] += !other.low_water().ok();
        wrong[4] += !other.figures().ok();
#ifndef __SANITIZE_THREAD__
        // That tool doesn't see the library's locks, and takes for a race that a summary copies
        // keys which another thread has added.
        wrong[5] += !other.summary(all, 1).ok();
#endif
    }
    thread.join();
    CHECK(are_added && wrong == (std::array<int, 6>{}));
}

/// A cache in stripes, by whose seats threads add and look up.
void stripes()
{
    Config config = low_at_5();
    config.page_max = 1 << 20;
    CHECK(Shared::open_striped(config, {}, 0).error() == Error::Seats);
    CHECK(Shared::open_striped(config, {"b", "a"}, 1).error() == Error::Bounds);
    CHECK(Shared::open_striped(config, {""}, 1).error() == Error::Bounds);
    CHECK(Shared::open_striped(config, std::string_view("b"), 1).ok());
    const std::vector<std::string_view> many(1024, "a");
    CHECK(Shared::open_striped(config, many, 1).error() == Error::Stripes);
    const std::string long_key(4097, 'x'), longest(4096, 'x');
    CHECK(Shared::open_striped(config, {"b", long_key}, 1).error() == Error::KeyTooLong);
    CHECK(Shared::open_striped(config, {"b", longest}, 1).ok());
    Shared shared = Shared::open_striped(config, {"b", "d"}, 3).value();
    Seat one = shared.seat().value(), other = shared.seat().value();
    const Value read = {{20}, ONE};
    const Span span = Span::range("a", "e");
    CHECK(one.add(span, read, {20}).value().place == 0);
    CHECK(one.add_all({{Span::point("x"), read}, {Span::point("c"), read}}, {20}).value().place == 1);
    CHECK(other.get_max(Span::point("d")).value().answer == read && other.get_max(span).value().seen == 0);
    CHECK(other.earliest_write({Span::point("c"), Span::point("z")}, {9}, TWO).value() == Time{20, 1});
    CHECK(other.may_write(Span::point("c"), {20}, ONE).value());
    CHECK(other.low_water().value().answer == Time{5} && one.low_water().value().seen == 2);
    CHECK(one.figures().value().answer.pages == 3 && one.figures().value().answer.memory > 0);
    Cache next = Cache::open(config).value();
    CHECK(next.apply(other.summary(Span::onward("")).value().answer, {30}).ok());
    CHECK(next.get_max(Span::point("b")).value() == read && next.get_max(Span::point("y")).value().time == Time{5});
    CHECK(shared.close().error() == Error::StillOut);
    bool is_right = true, is_below = true;
    std::thread thread([seat = std::move(other), &is_right]() mutable {
        for (std::uint64_t i = 0; i < 100; i++) {
            const auto told = seat.add(Span::point("f"), {{30 + i}, ONE}, {30}, UINT32_MAX);
            is_right = is_right && told.ok() && told.value().place == i;
        }
    });
    for (std::uint64_t i = 0; i < 100; i++)
        is_below = is_below && one.get_max(Span::onward("")).value().answer.time < Time{130};
    thread.join();
    CHECK(is_right && is_below);
    CHECK(one.get_max(Span::point("f")).value().answer.time == Time{129});
    one.close();
    CHECK(shared.close().value() == 102);
}

/// Each error of tscache.h has its own text, and `value` tells of it.
void results()
{
    std::set<std::string> texts;
    for (std::uint32_t code = 1; code <= TSC_BOUNDS; code++) {
        const auto error = static_cast<Error>(code);
        Result<Time> refused = error;
        texts.insert(text(error));
        CHECK(!refused.ok() && refused.error() == error && refused.why() == text(error));
        CHECK(throws(error, [&] { return refused.value(); }));
        CHECK(throws(error, [&] { return std::as_const(refused).value(); }));
        CHECK(throws(error, [&] { return std::move(refused).value(); }));
    }
    CHECK(texts.size() == TSC_BOUNDS &&
          std::string(text(static_cast<Error>(99))) == "no such answer");
    Result<Time> answered = Time{20, 1};
    CHECK(answered.ok() && answered.error() == Error::None && answered.value() == Time{20, 1});
    answered.value().logical = 2;
    CHECK(std::move(answered).value() == Time{20, 2});

    // a refusal is no time below which a write passes, and no leave to write
    Cache closed;
    const Span span = Span::point("a");
    CHECK(throws(Error::Closed, [&] { return closed.get_max(span).value(); }));
    CHECK(throws(Error::Closed, [&] { return closed.may_write(span, {9}, ONE).value(); }));
    CHECK(throws(Error::Closed, [&] { return closed.earliest_write(span, {9}, ONE).value(); }));
    CHECK(throws(Error::Closed, [&] { return closed.low_water().value(); }));
}

void settings()
{
    const Config config;
    CHECK(config.page_first == 131'072 && config.page_max == 33'554'432);
    CHECK(config.min_pages == 2 && config.retention.count() == 10'000'000'000);
    CHECK(config.low_water == Time{0, 0} && TRIES == 64);
    Config wrong = config;
    wrong.retention = std::chrono::nanoseconds(-1);
    CHECK(Cache::open(wrong).error() == Error::Retention);
    CHECK(Shared::open(wrong, 1).error() == Error::Retention);
    CHECK(Shared::open(config, 0).error() == Error::Seats);
    CHECK(Shared::open(config, 65).error() == Error::Seats);
    CHECK(built().version == std::to_string(TSC_VERSION_MAJOR) + "." +
                                 std::to_string(TSC_VERSION_MINOR) + "." +
                                 std::to_string(TSC_VERSION_PATCH));
    CHECK(std::strlen(built().commit) > 0 && std::strlen(built().kit) > 0);
}

void times_and_owners()
{
    CHECK(Time{20}.next() == Time{20, 1});
    CHECK(Time{20, INT32_MAX}.next() == Time{21});
    CHECK(!LAST.next());
    CHECK(!Owner() && !Owner(std::nullopt) && !Owner(Owner::Bytes{}) && ONE.has_value());
    CHECK(Owner(std::nullopt) == Owner() && ONE != TWO && ONE == Owner(*ONE));
    CHECK(READ == Value{{20}, ONE} && READ != Value{{21}, ONE} && READ != Value{{20}, TWO});
    for (std::size_t i = 0; i < 16; i++) {
        Owner::Bytes bytes = {};
        bytes[i] = 1;
        CHECK(Owner(bytes).has_value() && Owner(bytes) != Owner());
    }
}

/// Each of the sixteen bytes of a transaction goes in and comes out at its own place.
template <class Of> void bytes_of_owners(Of &of)
{
    Owner::Bytes bytes = {};
    for (std::size_t i = 0; i < 16; i++)
        bytes[i] = static_cast<std::uint8_t>(i * 0x11);
    const Span spans[] = {Span::point("x"), Span::point("y")};
    const Value value = {{20, 3}, bytes};
    of.add(spans[0], value, NOW).value();
    of.add_all({{spans[1], value}}, NOW).value();
    for (const Span &span : spans) {
        CHECK(of.may_write(span, {20, 3}, bytes).value());
        for (std::size_t i = 0; i < 16; i++) {
            Owner::Bytes other = bytes;
            other[i] ^= 1;
            CHECK(!of.may_write(span, {20, 3}, other).value());
            CHECK(of.earliest_write(span, {15}, other).value() == Time{20, 4});
        }
    }
    CHECK(of.earliest_write(spans, {15}, bytes).value() == Time{20, 3});
}

/// A call takes spans in each form, and asks for all of them.
template <class Of> void views(Of &of)
{
    const Span free = Span::point("0"), read = Span::point("a"), later = Span::range("b", "d");
    const std::vector<Span> spans = {free, read, later};
    const Span array[] = {free, read};
    of.add_all(std::vector<Mark>{{read, READ}, {Span::point("c"), {{30}, TWO}}}, NOW).value();
    CHECK(of.earliest_write({}, {15}, TWO).value() == Time{15});
    CHECK(of.earliest_write(free, {15}, TWO).value() == Time{15});
    CHECK(of.earliest_write(read, {15}, TWO).value() == Time{20, 1});
    CHECK(of.earliest_write({free, read}, {15}, TWO).value() == Time{20, 1});
    CHECK(of.earliest_write(array, {15}, TWO).value() == Time{20, 1});
    CHECK(of.earliest_write({spans.data(), 1}, {15}, TWO).value() == Time{15});
    CHECK(of.earliest_write(spans, {15}, TWO).value() == Time{30});
    CHECK(of.may_write(spans, {30}, TWO).value() && !of.may_write(spans, {30}, ONE).value());
    CHECK(of.add_all({}, NOW).ok());
    CHECK(of.add_all({{Span::point("e"), READ}, {Span::range("c", "a"), READ}}, NOW).error() ==
          Error::Inverted);
    CHECK(of.earliest_write(Span::point("e"), {6}, TWO).value() == Time{6});
    CHECK(of.earliest_write({free, Span::range("c", "a")}, {9}, TWO).error() == Error::Inverted);
    CHECK(of.may_write(Span::range("c", "a"), {9}, TWO).error() == Error::Inverted);
    const Ends wrong = static_cast<Ends>(TSC_POINT);
    CHECK(of.get_max(Span::onward("a", Ends::ExcludeTo)).error() == Error::Ends);
    CHECK(of.get_max(Span::onward("a", wrong)).error() == Error::Ends);
    CHECK(of.add(Span::range("a", "c", wrong), READ, NOW).error() == Error::Ends);
    CHECK(of.get_max(Span::point({})).ok() && of.add(Span::point({}), READ, NOW).ok());
    CHECK(of.earliest_write(Span::point({}), {15}, TWO).value() == Time{20, 1});
    of.add(Span::onward("x"), {LAST, {}}, NOW).value();
    CHECK(of.earliest_write(Span::point("y"), {15}, TWO).error() == Error::NoTime);
    CHECK(!of.may_write(Span::point("y"), {15}, TWO).value());
    CHECK(of.may_write(Span::point("y"), {UINT64_MAX}, TWO).error() == Error::Time);
}

/// How often memory is taken, of which all is given back.
template <class Call> std::size_t takes(Call call)
{
    const std::size_t before = taken, kept = taken - given;
    call();
    CHECK(taken - given == kept);
    return taken - before;
}

/// Answers of a call for which no memory is taken.
template <class Call> auto without_memory(Call call)
{
    refuses = true;
    auto result = call();
    refuses = false;
    return result;
}

/// What calls take: nothing but for long batches and questions, and for bytes that they answer.
template <class Of> void memory(Of &of)
{
    const std::string from(512, 'a'), to(512, 'b'), longer(513, 'b');
    const std::vector<Span> eight(8, Span::point("k")), nine(9, Span::point("k"));
    const std::vector<Mark> few(8, Mark{eight[0], READ}), many(9, Mark{eight[0], READ});
    const Span range = Span::range(from, to), wide = Span::range(from, longer);
    auto asks = [&](View<Span> spans) {
        return takes([&] {
            of.earliest_write(spans, {15}, ONE).value();
            of.may_write(spans, {15}, ONE).value();
        });
    };
    CHECK(takes([&] {
              of.add(range, READ, NOW).value();
              of.add_all(few, NOW).value();
              of.get_max(wide).value();
              of.low_water().value();
              of.figures().value();
          }) == 0);
    CHECK(asks(eight) == 0 && asks(range) == 0 && asks({}) == 0);
    CHECK(asks(Span::onward(std::string_view(longer).substr(1))) == 0);
    CHECK(asks(nine) == 2 && asks(wide) == 2 && asks({nine[0], wide}) == 2);
    CHECK(takes([&] { of.add_all(many, NOW).value(); }) == 1);
    CHECK(takes([&] { of.summary(Span::onward("")).value(); }) == 1);

    const Span fresh = Span::point("z");
    std::vector<Mark> marks(9, Mark{fresh, READ});
    const auto refused = [&](auto call) {
        return without_memory(call) == Error::NoMemory;
    };
    CHECK(refused([&] { return of.add_all(marks, NOW).error(); }));
    CHECK(of.may_write(fresh, {15}, TWO).value());
    CHECK(refused([&] { return of.may_write(nine, {15}, ONE).error(); }));
    CHECK(refused([&] { return of.earliest_write(nine, {15}, ONE).error(); }));
    CHECK(refused([&] { return of.earliest_write(wide, {15}, ONE).error(); }));
    CHECK(refused([&] { return of.summary(fresh).error(); }));
    CHECK(without_memory([&] { return of.add(fresh, READ, NOW).ok(); }));
    CHECK(!of.may_write(fresh, {15}, TWO).value());
}

void memory_of_owners()
{
    CHECK(takes([] {
              Cache cache = opened(), other = std::move(cache);
              cache = std::move(other);
              Shared shared = Shared::open(low_at_5(), 2).value();
              Seat seat = shared.seat().value(), second = std::move(seat);
              seat = std::move(second);
              seat.close();
              shared.close().value();
          }) == 0);
    CHECK(without_memory([] { return replay("[").error(); }) == Error::NoMemory);
    CHECK(without_memory([] { return check("[", "").error(); }) == Error::NoMemory);
}

std::string bytes_of(const std::string &bytes) { return bytes; }
std::string bytes_of(const Seen<std::string> &told) { return told.answer; }
Value latest_of(const Value &value) { return value; }
Value latest_of(const Seen<Value> &told) { return told.answer; }

/// Summaries of many lengths, below, at and above the room that is asked with first, go to another
/// cache, which then answers the same.
template <class Of> void summaries(Of (*open_another)())
{
    std::vector<std::size_t> lengths;
    for (const std::size_t count : {0, 1, 92, 93, 94, 5000}) {
        Of former = open_another();
        Cache next = opened();
        std::vector<std::string> keys;
        for (std::size_t i = 0; i < count; i++) {
            keys.push_back({static_cast<char>(i >> 8), static_cast<char>(i & 255)});
            if (count == 92 && i == 91)
                keys.back().resize(38);
            former.add(Span::point(keys.back()), {{20 + i}, ONE}, NOW).value();
        }
        const std::string summary = bytes_of(former.summary(Span::onward("")).value());
        lengths.push_back(summary.size());
        CHECK(next.apply(summary, NOW).value().kept == (count > 0));
        bool is_alike = true;
        for (const std::string &key : keys)
            is_alike = is_alike && next.get_max(Span::point(key)).value() ==
                                       latest_of(former.get_max(Span::point(key)).value());
        CHECK(is_alike && next.summary(Span::onward("")).value() == summary);
        CHECK(bytes_of(former.summary(Span::onward(""), 0).value()).size() == 68);
        CHECK(next.apply(std::string_view(summary).substr(1), NOW).error() ==
              (summary[1] == summary[0] ? Error::SummaryLength : Error::SummaryVersion));
    }
    CHECK(lengths == std::vector<std::size_t>{68, 111, 4096, 4067, 4110, 215'068});
    Of former = open_another();
    CHECK(former.summary(Span::range("c", "a")).error() == Error::Inverted);
    CHECK(former.summary(Span::range("c", "a")).why() == text(Error::Inverted));
}

void texts()
{
    const std::string head = R"({"page_first":132,"page_max":132,"min_pages":2,"retention":10,)"
                             R"("low_water":[5,0],"threads":[[)";
    for (const int count : {1, 190, 200, 210, 5000}) {
        std::string trace = head, log;
        for (int i = 0; i < count; i++) {
            trace += std::string(i ? "," : "") + R"({"op":"get","span":{"start":"61"}})";
            log += "0 " + std::to_string(i) + " get 0 5.0 none\n";
        }
        trace += "]]}";
        CHECK(replay(trace).value() == log && check(trace, log).value() == "right\n");
        log[log.size() - 9] = '6';
        CHECK(check(trace, log).value() == "wrong answer " + std::to_string(count) + "\n");
        CHECK(check(trace, "0 0 get").why() == "log refused: fault 1 at line 1");
    }
    const auto refused = replay({});
    CHECK(refused.error() == Error::Refused && refused.why() == "trace refused: fault 1");
    std::string what;
    try {
        what = refused.value();
    } catch (const Refusal &refusal) {
        what = std::string("thrown: ") + refusal.what();
    }
    CHECK(what == "thrown: trace refused: fault 1");
    CHECK(check({}, {}).why() == "trace refused: fault 1");
}

const Figures &figures_of(const Figures &figures) { return figures; }
const Figures &figures_of(const Seen<Figures> &told) { return told.answer; }

template <class Of> void counts(Of &of)
{
    const Span span = Span::point("a");
    of.add(span, READ, NOW).value();
    of.add_all({{span, READ}, {Span::point("b"), READ}}, NOW).value();
    CHECK(of.add(Span::range("c", "a"), READ, NOW).error() == Error::Inverted);
    of.get_max(span).value();
    of.earliest_write(span, {15}, TWO).value();
    of.may_write(span, {15}, TWO).value();
    const auto told = of.figures().value();
    const Figures &figures = figures_of(told);
    CHECK(figures.pages == 1 && figures.nodes == 2 && figures.bytes == 66);
    CHECK(figures.adds == 2 && figures.refusals == 1 && figures.lookups == 3);
    CHECK(figures.evicted == 0 && figures.memory > figures.bytes);
}

/// A seat alone, whose cache lives on in it.
Seat lone_seat() { return Shared::open(low_at_5(), 1).value().seat().value(); }

/// Threads share a cache, each with a seat of its own, which is handed in where the thread ends. No
/// Add is lost, each has its place, and a thread sees what it has added.
void threads()
{
    constexpr std::size_t THREADS = 4, TURNS = 2000;
    Shared shared = Shared::open(low_at_5(), THREADS).value();
    std::vector<std::vector<std::uint64_t>> places(THREADS);
    std::atomic<int> wrong = 0;
    std::vector<std::thread> all;
    for (std::size_t i = 0; i < THREADS; i++) {
        all.emplace_back([&places, &wrong, i, seat = shared.seat().value()]() mutable {
            const std::string key(1, static_cast<char>('a' + i));
            const Span span = Span::point(key);
            for (std::uint64_t turn = 0; turn < TURNS; turn++) {
                const Value read = {{30 + turn}, ONE};
                // no other is in the way so often
                auto one = seat.add(span, read, NOW, UINT32_MAX);
                auto more = seat.add_all({{Span::point("z"), read}}, NOW, UINT32_MAX);
                auto latest = seat.get_max(span);
                wrong += !one.ok() || !more.ok() || !latest.ok();
                if (one.ok() && more.ok() && latest.ok()) {
                    places[i].push_back(one.value().place);
                    places[i].push_back(more.value().place);
                    wrong +=
                        latest.value().answer != read || latest.value().seen <= more.value().place;
                }
            }
        });
    }
    for (std::thread &thread : all)
        thread.join();
    std::set<std::uint64_t> each;
    for (const auto &of_one : places)
        each.insert(of_one.begin(), of_one.end());
    CHECK(wrong == 0 && each.size() == 2 * THREADS * TURNS && *each.rbegin() == each.size() - 1);
    all.clear();
    CHECK(shared.close().value() == 2 * THREADS * TURNS);
}

void seats()
{
    const Span span = Span::point("a");
    Shared shared = Shared::open(low_at_5(), 2, 2).value();
    Seat one = shared.seat().value(), other = shared.seat().value();
    CHECK(one.add(span, READ, NOW, 0).error() == Error::Tries);
    CHECK(one.add_all({}, NOW, 0).error() == Error::Tries);
    CHECK(one.add(span, READ, NOW, 1).value().place == 0);
    CHECK(other.add_all({{span, READ}}, NOW).value().place == 1);
    CHECK(one.add(span, READ, NOW).error() == Error::Full);
    CHECK(one.low_water().value().answer == Time{5} && one.low_water().value().seen == 2);
    CHECK(other.figures().value().seen == 2 && other.summary(span).value().seen == 2);
}

/// What a cache and a seat have in common.
template <class Of> void of_both(Of (*open_another)())
{
    for (void (*test)(Of &) : {bytes_of_owners<Of>, views<Of>, memory<Of>, counts<Of>}) {
        Of of = open_another();
        test(of);
    }
    summaries(open_another);
}

void of_caches() { of_both<Cache>(opened); }
void of_seats() { of_both<Seat>(lone_seat); }

} // namespace

int main()
{
    for (void (*test)() : {caches_move, shared_caches_move, results, settings, times_and_owners,
                           memory_of_owners, texts, seats, threads, stripes,
                           lookups_are_never_busy, of_caches, of_seats}) {
        try {
            test();
        } catch (const std::exception &why) {
            std::cout << "test_owners.cc: " << why.what() << "\n";
            failed++;
        }
    }
    std::cout << passed << " passed, " << failed << " failed\n";
    return failed != 0;
}
