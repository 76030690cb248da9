/// The record of what a client has called, and when: a line for each begin and each end.
///
///     {"client":3,"txn":17,"event":"begin","at":NS,"intends":[["append","k1",5],["read","k2"]]}
///     {"client":3,"txn":17,"event":"end","at":NS,"outcome":"committed","ops":[["append","k1",5],..
///
/// A line is with the system before the call goes on. So of a process that is killed each client
/// has at most one transaction that doesn't end. What that may have written stands at its begin.
#pragma once

#include "mixes.hpp"

#include <chrono>
#include <cstdint>
#include <stdexcept>
#include <string>

#include <fcntl.h>
#include <unistd.h>

namespace rocks_store {

using List = std::vector<std::uint64_t>;

inline std::string json(const std::string &text) { return '"' + text + '"'; }
inline std::string json(const List &list)
{
    std::string text;
    for (const std::uint64_t value : list)
        text += (text.empty() ? "" : ",") + std::to_string(value);
    return '[' + text + ']';
}

/// A call as it is meant, without what it is answered.
inline std::string json(const Op &op)
{
    switch (op.kind) {
    case Op::Read: return "[\"read\"," + json(op.key) + ']';
    case Op::Append:
        return "[\"append\"," + json(op.key) + ',' + std::to_string(op.value) + ']';
    case Op::Scan: return "[\"scan\"," + json(op.key) + ',' + json(op.to) + ']';
    default: return "[\"delete\"," + json(op.key) + ']';
    }
}

class Record {
public:
    /// Without a folder nothing is recorded.
    Record(const std::string &folder, std::size_t client)
        : head_("{\"client\":" + std::to_string(client) + ",\"txn\":")
    {
        if (folder.empty())
            return;
        const std::string name = folder + "/client-" + std::to_string(client) + ".jsonl";
        file_ = open(name.c_str(), O_WRONLY | O_CREAT | O_APPEND | O_CLOEXEC, 0644);
        if (file_ < 0)
            throw std::runtime_error("cannot write " + name);
    }
    Record(const Record &) = delete;
    Record &operator=(const Record &) = delete;
    ~Record()
    {
        if (file_ >= 0)
            close(file_);
    }

    [[nodiscard]] bool is_kept() const { return file_ >= 0; }

    void begin(std::uint64_t txn, const Plan &plan)
    {
        if (!is_kept())
            return;
        std::string ops;
        for (const Op &op : plan)
            ops += (ops.empty() ? "" : ",") + json(op);
        line(txn, "begin", ",\"intends\":[" + ops + "]}\n");
    }

    void end(std::uint64_t txn, const char *outcome, const std::string &ops)
    {
        if (is_kept())
            line(txn, "end", ",\"outcome\":" + json(outcome) + ",\"ops\":[" + ops + "]}\n");
    }

private:
    /// Nanoseconds since the epoch that never go back within a process.
    static std::int64_t now()
    {
        using Steady = std::chrono::steady_clock;
        static const Steady::time_point begin = Steady::now();
        static const auto epoch = std::chrono::system_clock::now().time_since_epoch();
        return std::chrono::nanoseconds(epoch + (Steady::now() - begin)).count();
    }

    void line(std::uint64_t txn, const char *event, const std::string &rest)
    {
        const std::string text = head_ + std::to_string(txn) + ",\"event\":" + json(event) +
                                 ",\"at\":" + std::to_string(now()) + rest;
        if (write(file_, text.data(), text.size()) != static_cast<ssize_t>(text.size()))
            throw std::runtime_error("the record cannot be written");
    }

    std::string head_;
    int file_ = -1;
};

} // namespace rocks_store
