#include "power_cut.hpp"

#include <mutex>
#include <string>
#include <utility>

#include <rocksdb/file_system.h>

using namespace rocksdb;

namespace rocks_store {
namespace {

/// A file whose end is in memory.
class File : public FSWritableFileOwnerWrapper {
public:
    explicit File(std::unique_ptr<FSWritableFile> file)
        : FSWritableFileOwnerWrapper(std::move(file))
    {
    }

    IOStatus Append(const Slice &data, const IOOptions &, IODebugContext *) override
    {
        std::lock_guard<std::mutex> lock(mutex_);
        end_.append(data.data(), data.size());
        return IOStatus::OK();
    }
    IOStatus Append(const Slice &data, const IOOptions &how, const DataVerificationInfo &,
                    IODebugContext *context) override
    {
        return Append(data, how, context);
    }
    IOStatus Flush(const IOOptions &, IODebugContext *) override { return IOStatus::OK(); }
    IOStatus RangeSync(std::uint64_t, std::uint64_t, const IOOptions &, IODebugContext *) override
    {
        return IOStatus::OK();
    }

    /// What the system has outlives the process, so the disk itself is left in peace.
    IOStatus Sync(const IOOptions &how, IODebugContext *context) override
    {
        std::lock_guard<std::mutex> lock(mutex_);
        return write_end(how, context);
    }
    IOStatus Fsync(const IOOptions &how, IODebugContext *context) override
    {
        return Sync(how, context);
    }
    IOStatus Close(const IOOptions &how, IODebugContext *context) override
    {
        std::lock_guard<std::mutex> lock(mutex_);
        const IOStatus written = write_end(how, context);
        const IOStatus closed = FSWritableFileOwnerWrapper::Close(how, context);
        return written.ok() ? closed : written;
    }
    IOStatus Truncate(std::uint64_t size, const IOOptions &how, IODebugContext *context) override
    {
        std::lock_guard<std::mutex> lock(mutex_);
        const IOStatus written = write_end(how, context);
        return written.ok() ? FSWritableFileOwnerWrapper::Truncate(size, how, context) : written;
    }
    std::uint64_t GetFileSize(const IOOptions &how, IODebugContext *context) override
    {
        std::lock_guard<std::mutex> lock(mutex_);
        return FSWritableFileOwnerWrapper::GetFileSize(how, context) + end_.size();
    }

private:
    IOStatus write_end(const IOOptions &how, IODebugContext *context)
    {
        if (end_.empty())
            return IOStatus::OK();
        const std::string end = std::exchange(end_, {});
        const IOStatus written = FSWritableFileOwnerWrapper::Append(end, how, context);
        return written.ok() ? FSWritableFileOwnerWrapper::Flush(how, context) : written;
    }

    std::mutex mutex_;
    std::string end_;
};

class Files : public FileSystemWrapper {
public:
    Files() : FileSystemWrapper(FileSystem::Default()) {}
    const char *Name() const override { return "PowerCut"; }

    IOStatus NewWritableFile(const std::string &name, const FileOptions &how,
                             std::unique_ptr<FSWritableFile> *file,
                             IODebugContext *context) override
    {
        return wrap(FileSystemWrapper::NewWritableFile(name, how, file, context), file);
    }
    IOStatus ReopenWritableFile(const std::string &name, const FileOptions &how,
                                std::unique_ptr<FSWritableFile> *file,
                                IODebugContext *context) override
    {
        return wrap(FileSystemWrapper::ReopenWritableFile(name, how, file, context), file);
    }

private:
    static IOStatus wrap(IOStatus opened, std::unique_ptr<FSWritableFile> *file)
    {
        if (opened.ok())
            *file = std::make_unique<File>(std::move(*file));
        return opened;
    }
};

} // namespace

std::unique_ptr<Env> with_power_cuts() { return NewCompositeEnv(std::make_shared<Files>()); }

} // namespace rocks_store
