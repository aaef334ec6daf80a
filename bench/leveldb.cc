// LevelDB's own log writer and reader on logs in memory, for the benchmark to take turns with. For each line of standard input,
// a command, the length of a record and how many there are, it does this once and answers on standard output:
//
//     log LENGTH COUNT      writes the records; a line with the log's length, then the log itself
//     write LENGTH COUNT    writes the records; the nanoseconds that took
//     read LENGTH COUNT     reads the log written last; the nanoseconds that took
#include "../interop/leveldb_log.h"

#include <chrono>
#include <cstdlib>
#include <iostream>
#include <string>
#include <vector>

using leveldb::Slice;

namespace {

void require(bool holds, const char* what) {
    if (holds) return;
    std::cerr << "leveldb: " << what << std::endl;
    std::exit(1);
}

// The log's length.
size_t write(std::vector<char>* array, const std::string& record, size_t count) {
    Sink sink(array);
    leveldb::log::Writer writer(&sink);
    for (size_t i = 0; i < count; i++) require(writer.AddRecord(record).ok(), "a record was not written");
    return sink.used();
}

void read(Slice log, size_t length, size_t count) {
    Source source(log);
    leveldb::log::Reader reader(&source, nullptr, true, 0);
    Slice record;
    std::string scratch;
    size_t records = 0;
    while (reader.ReadRecord(&record, &scratch)) {
        require(record.size() == length, "a record of another length came back");
        records++;
    }
    require(records == count, "not all records came back");
}

std::string bytes(size_t length) {
    std::string bytes(length, 0);
    // As rust/bench/src/sample.rs has them.
    for (size_t i = 0; i < length; i++) bytes[i] = static_cast<char>(i * 7 + i / 251);
    return bytes;
}

}  // namespace

int main() {
    std::vector<char> array(16 << 20);
    size_t used = 0;
    std::string command;
    size_t length, count;
    while (std::cin >> command >> length >> count) {
        const std::string record = bytes(length);
        const auto began = std::chrono::steady_clock::now();
        if (command == "read") {
            read(Slice(array.data(), used), length, count);
        } else {
            used = write(&array, record, count);
        }
        const std::chrono::nanoseconds time = std::chrono::steady_clock::now() - began;
        if (command == "log") {
            std::cout << used << '\n';
            std::cout.write(array.data(), static_cast<std::streamsize>(used));
        } else {
            std::cout << time.count() << '\n';
        }
        std::cout.flush();
    }
}
