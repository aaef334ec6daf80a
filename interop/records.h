// Lists of records on standard input and output: of each its length, 4 bytes, the lowest first, and then its bytes.
#pragma once

#include <leveldb/slice.h>

#include <cstdint>
#include <cstdlib>
#include <iostream>
#include <iterator>
#include <string>
#include <vector>

// Status 2, so that it is told from what a program says of a log.
inline void require(bool holds, const std::string& what) {
    if (holds) return;
    std::cerr << what << std::endl;
    std::exit(2);
}

inline std::string all_input() {
    return std::string(std::istreambuf_iterator<char>(std::cin), std::istreambuf_iterator<char>());
}

// All of standard input. The records are parts of it.
inline std::vector<leveldb::Slice> records_of(const std::string& input) {
    std::vector<leveldb::Slice> records;
    leveldb::Slice rest(input);
    while (!rest.empty()) {
        require(rest.size() >= 4, "the input ends inside a length");
        uint32_t length = 0;
        for (int i = 3; i >= 0; i--) length = length << 8 | static_cast<unsigned char>(rest[i]);
        rest.remove_prefix(4);
        require(rest.size() >= length, "the input ends inside a record");
        records.emplace_back(rest.data(), length);
        rest.remove_prefix(length);
    }
    return records;
}

inline void print_record(const leveldb::Slice& record) {
    for (int i = 0; i < 4; i++) std::cout.put(static_cast<char>(record.size() >> 8 * i));
    std::cout.write(record.data(), static_cast<std::streamsize>(record.size()));
}
