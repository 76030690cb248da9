/// A layer between RocksDB and its files that stands in for a power cut.
#pragma once

#include <memory>

#include <rocksdb/env.h>

namespace rocks_store {

/// What is written to a file stays in the memory of this process until the file is synced or
/// closed. So a process that is killed loses what was not synced, as a machine does without power.
std::unique_ptr<rocksdb::Env> with_power_cuts();

} // namespace rocks_store
