// LevelDB's own log writer and reader as a program, so that its journals and ours can be held against each other:
//
//     leveldb_journal write    a list of records in (records.h), the log that LevelDB makes of them out
//     leveldb_journal read     a log in, the list of the records that LevelDB finds in it out
//
// Of bytes that reading drops, it says on standard error how many and why, and its exit status is 1.
//
//     g++ -std=c++17 -O2 interop/leveldb_journal.cc -l:libleveldb.a -o leveldb_journal
#include "leveldb_log.h"
#include "records.h"

namespace {

class Dropped : public leveldb::log::Reader::Reporter {
  public:
    void Corruption(size_t bytes, const leveldb::Status& status) override {
        std::cerr << "dropped " << bytes << " bytes: " << status.ToString() << std::endl;
        any_ = true;
    }
    bool any() const { return any_; }

  private:
    bool any_ = false;
};

void write(const std::string& input) {
    // More than any of the tests writes.
    std::vector<char> array(16 << 20);
    Sink sink(&array);
    leveldb::log::Writer writer(&sink);
    for (const leveldb::Slice& record : records_of(input)) {
        const leveldb::Status status = writer.AddRecord(record);
        require(status.ok(), status.ToString());
    }
    std::cout.write(array.data(), static_cast<std::streamsize>(sink.used()));
}

// Whether all of it was read.
bool read(const std::string& log) {
    Source source(log);
    Dropped dropped;
    leveldb::log::Reader reader(&source, &dropped, true, 0);
    leveldb::Slice record;
    std::string scratch;
    while (reader.ReadRecord(&record, &scratch)) print_record(record);
    return !dropped.any();
}

}  // namespace

int main(int count, char** args) {
    const std::string mode = count == 2 ? args[1] : "";
    require(mode == "write" || mode == "read", "usage: leveldb_journal write|read");
    const std::string input = all_input();
    bool whole = true;
    if (mode == "write") {
        write(input);
    } else {
        whole = read(input);
    }
    std::cout.flush();
    require(std::cout.good(), "standard output takes no more");
    return whole ? 0 : 1;
}
