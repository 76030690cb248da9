/// The keys that a call touches.
#pragma once

#include <algorithm>
#include <optional>
#include <string>
#include <string_view>
#include <utility>

#include <tscache.hpp>

namespace rocks_store {

/// One key, or the keys from one on to another that is excluded, or all from one on.
class Keys {
public:
    static Keys one(std::string key) { return {std::move(key), std::nullopt, true}; }
    /// The first key is the lesser one.
    static Keys between(std::string from, std::string to)
    {
        return {std::move(from), std::move(to), false};
    }
    static Keys onward(std::string from) { return {std::move(from), std::nullopt, false}; }

    [[nodiscard]] const std::string &from() const { return from_; }
    [[nodiscard]] bool is_one() const { return is_one_; }

    /// Whether a key lies before the end of these.
    [[nodiscard]] bool end_after(std::string_view key) const
    {
        return is_one_ ? key <= from_ : !to_ || key < *to_;
    }

    [[nodiscard]] bool overlap(const Keys &other) const
    {
        return end_after(other.from_) && other.end_after(from_);
    }

    /// Those of these keys that are among others too. The two overlap.
    [[nodiscard]] Keys among(const Keys &others) const
    {
        if (is_one_)
            return *this;
        const auto &to = !to_ || (others.to_ && *others.to_ < *to_) ? others.to_ : to_;
        return {std::max(from_, others.from_), to, false};
    }

    /// As the cache has them. It has views of these keys, so they have to live on.
    [[nodiscard]] tscache::Span span() const &
    {
        if (is_one_)
            return tscache::Span::point(from_);
        return to_ ? tscache::Span::range(from_, *to_) : tscache::Span::onward(from_);
    }
    tscache::Span span() const && = delete;

private:
    Keys(std::string from, std::optional<std::string> to, bool is_one)
        : from_(std::move(from)), to_(std::move(to)), is_one_(is_one)
    {
    }

    std::string from_;
    std::optional<std::string> to_;
    bool is_one_;
};

} // namespace rocks_store
