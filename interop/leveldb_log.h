// LevelDB's own log writer and reader, and logs in memory for them to write and read.
#pragma once

#include <leveldb/env.h>
#include <leveldb/slice.h>
#include <leveldb/status.h>

#include <algorithm>
#include <cstdint>
#include <cstring>
#include <string>
#include <vector>

// The library has these classes, but its headers do not. What is declared here is what their callers see; the storage is for
// whatever they hold, with much to spare. They are in the archive libleveldb.a: Debian's shared library hides them.
namespace leveldb {
namespace log {

class Writer {
  public:
    explicit Writer(WritableFile* file);
    ~Writer();
    Status AddRecord(const Slice& record);

  private:
    alignas(16) char storage_[1024];
};

class Reader {
  public:
    // Is told how many bytes were dropped, and why. The order of the two is the library's.
    class Reporter {
      public:
        virtual ~Reporter();
        virtual void Corruption(size_t bytes, const Status& status) = 0;
    };
    Reader(SequentialFile* file, Reporter* reporter, bool checksum, uint64_t initial_offset);
    ~Reader();
    bool ReadRecord(Slice* record, std::string* scratch);

  private:
    alignas(16) char storage_[1024];
};

}  // namespace log
}  // namespace leveldb

// What is appended goes into an array that is there before.
class Sink : public leveldb::WritableFile {
  public:
    explicit Sink(std::vector<char>* array) : array_(array), used_(0) {}
    leveldb::Status Append(const leveldb::Slice& data) override {
        if (data.size() > array_->size() - used_) return leveldb::Status::IOError("the array is full");
        std::memcpy(array_->data() + used_, data.data(), data.size());
        used_ += data.size();
        return leveldb::Status::OK();
    }
    leveldb::Status Close() override { return leveldb::Status::OK(); }
    leveldb::Status Flush() override { return leveldb::Status::OK(); }
    leveldb::Status Sync() override { return leveldb::Status::OK(); }
    size_t used() const { return used_; }

  private:
    std::vector<char>* array_;
    size_t used_;
};

// Hands out parts of an array without a copy.
class Source : public leveldb::SequentialFile {
  public:
    explicit Source(leveldb::Slice bytes) : rest_(bytes) {}
    leveldb::Status Read(size_t n, leveldb::Slice* result, char*) override {
        *result = leveldb::Slice(rest_.data(), std::min(n, rest_.size()));
        rest_.remove_prefix(result->size());
        return leveldb::Status::OK();
    }
    leveldb::Status Skip(uint64_t n) override {
        rest_.remove_prefix(std::min<size_t>(n, rest_.size()));
        return leveldb::Status::OK();
    }

  private:
    leveldb::Slice rest_;
};
