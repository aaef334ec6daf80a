// Has LevelDB put a list of records from standard input (records.h) into a new database, one after the other, each under its
// number. The database's own journal, the file 000003.log in its folder, then holds one record for each put.
//
//     g++ -std=c++17 -O2 interop/leveldb_database.cc -lleveldb -o leveldb_database
//     ./leveldb_database FOLDER
#include "records.h"

#include <leveldb/db.h>

#include <memory>

int main(int count, char** args) {
    require(count == 2, "usage: leveldb_database FOLDER");
    leveldb::Options options;
    options.create_if_missing = true;
    options.error_if_exists = true;
    leveldb::DB* opened = nullptr;
    leveldb::Status status = leveldb::DB::Open(options, args[1], &opened);
    require(status.ok(), status.ToString());
    const std::unique_ptr<leveldb::DB> database(opened);
    const std::string input = all_input();
    size_t number = 0;
    for (const leveldb::Slice& record : records_of(input)) {
        number++;
        status = database->Put(leveldb::WriteOptions(), std::to_string(number), record);
        require(status.ok(), status.ToString());
    }
}
