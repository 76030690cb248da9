/// What the clients of a load do: the mixes A to F of YCSB, and transactions over lists.
#pragma once

#include <algorithm>
#include <atomic>
#include <cmath>
#include <cstdint>
#include <cstdio>
#include <optional>
#include <random>
#include <stdexcept>
#include <string>
#include <vector>

namespace rocks_store {

/// A key has a list of numbers, to which transactions append. No number is appended twice. A list
/// that is deleted begins anew.
struct Op {
    enum Kind { Read, Append, Scan, Delete } kind;
    std::string key, to = {};
    std::uint64_t value = 0;
};
using Plan = std::vector<Op>;

/// Names of so many keys are in the order of their numbers, also behind those that are inserted.
constexpr std::uint64_t MOST_KEYS = 10'000'000;

inline std::string key_name(std::uint64_t number)
{
    char name[32];
    std::snprintf(name, sizeof name, "k%08llu", static_cast<unsigned long long>(number));
    return name;
}

/// Numbers below a count. A zipfian draw has number `n` with a weight of 1 / (n + 1)^0.99, by the
/// method of Gray and others (SIGMOD 1994) that YCSB takes.
class Draw {
public:
    Draw(std::uint64_t count, bool is_zipfian) : count_(count), is_zipfian_(is_zipfian)
    {
        if (!is_zipfian)
            return;
        double first_two = 0;
        for (std::uint64_t n = 1; n <= count; n++) {
            sum_ += std::pow(static_cast<double>(n), -THETA);
            first_two = n == 2 ? sum_ : first_two;
        }
        eta_ = (1 - std::pow(2.0 / static_cast<double>(count), 1 - THETA)) /
               (1 - first_two / sum_);
    }

    template <class Random> std::uint64_t operator()(Random &random) const
    {
        if (!is_zipfian_)
            return random() % count_;
        const double part = std::uniform_real_distribution<double>()(random);
        if (part * sum_ < 1)
            return 0;
        if (part * sum_ < 1 + std::pow(0.5, THETA))
            return std::min<std::uint64_t>(1, count_ - 1);
        const double at = std::pow(eta_ * part - eta_ + 1, 1 / (1 - THETA));
        return std::min(count_ - 1, static_cast<std::uint64_t>(static_cast<double>(count_) * at));
    }

private:
    static constexpr double THETA = 0.99;
    std::uint64_t count_;
    bool is_zipfian_;
    double sum_ = 0, eta_ = 0;
};

/// What all clients of a load have in common.
struct Load {
    std::string mix;
    std::uint64_t keys;
    Draw draw;
    std::atomic<std::uint64_t> next_number; // of a value, and of a transaction
    std::atomic<std::uint64_t> inserted{0};
};

/// Makes the plans of one client.
class Mix {
public:
    Mix(Load &load, std::uint64_t seed) : load_(load), random_(seed) {}

    Plan next()
    {
        if (load_.mix == "list")
            return lists();
        const std::uint64_t of_100 = random_() % 100;
        switch (load_.mix[0]) {
        case 'A': return of_100 < 50 ? read(some()) : update(some());
        case 'B': return of_100 < 95 ? read(some()) : update(some());
        case 'C': return read(some());
        case 'D': return of_100 < 95 ? read(latest()) : insert();
        case 'E': return of_100 < 95 ? scan() : insert();
        case 'F': return of_100 < 50 ? read(some()) : change(some());
        }
        throw std::invalid_argument("no such mix");
    }

private:
    static Plan read(std::string key) { return {{Op::Read, std::move(key)}}; }

    /// A new list of one number, whatever was there.
    Plan update(const std::string &key)
    {
        return {{Op::Delete, key}, {Op::Append, key, {}, load_.next_number++}};
    }
    Plan change(const std::string &key)
    {
        return {{Op::Read, key}, {Op::Delete, key}, {Op::Append, key, {}, load_.next_number++}};
    }
    Plan insert()
    {
        const std::string key = key_name(load_.keys + load_.inserted++);
        return {{Op::Append, key, {}, load_.next_number++}};
    }
    Plan scan()
    {
        const std::uint64_t from = number();
        return {{Op::Scan, key_name(from), key_name(from + 1 + random_() % 100)}};
    }

    /// One to five calls on a few keys.
    Plan lists()
    {
        Plan plan;
        for (std::uint64_t calls = 1 + random_() % 5; calls > 0; calls--) {
            const std::uint64_t of_100 = random_() % 100;
            if (of_100 < 45) {
                plan.push_back({Op::Append, some(), {}, load_.next_number++});
            } else if (of_100 < 85) {
                plan.push_back({Op::Read, some()});
            } else if (of_100 < 97) {
                const std::uint64_t from = random_() % load_.keys;
                const std::uint64_t to = from + 1 + random_() % (load_.keys / 4 + 1);
                plan.push_back({Op::Scan, key_name(from), key_name(to)});
            } else {
                plan.push_back({Op::Delete, some()});
            }
        }
        return plan;
    }

    std::string some() { return key_name(number()); }
    std::string latest()
    {
        const std::uint64_t all = load_.keys + load_.inserted;
        return key_name(all - 1 - load_.draw(random_));
    }

    /// Numbers that are drawn often lie among the others. (7919 is prime.)
    std::uint64_t number() { return load_.draw(random_) * 7919 % load_.keys; }

    Load &load_;
    std::mt19937_64 random_;
};

} // namespace rocks_store
