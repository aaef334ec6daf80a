// Has LevelDB itself write a log of three records: the first is one FULL from place 0 on, the second ends at place 32,761,
// 7 before the block's end, and so the third is an empty FIRST and a LAST. The bytes of the first and the third are those of
// `Published` in crates/log_format/specs/Promises/Writing.antt.
//
//     g++ docs/leveldb_record.cc -lleveldb -o leveldb_record && ./leveldb_record db
//     od -An -tx1 -N32 db/000003.log
//     od -An -tx1 -j32761 db/000003.log
#include <leveldb/db.h>

#include <cstdio>
#include <string>

int main(int, char** args) {
    leveldb::Options options;
    options.create_if_missing = true;
    options.error_if_exists = true;
    leveldb::DB* db;
    leveldb::Status status = leveldb::DB::Open(options, args[1], &db);
    if (status.ok()) {
        leveldb::WriteOptions write;
        status = db->Put(write, "LW10-1", "9137");
        // A batch's header, the tag and the lengths of key and value take 17 bytes, and the key one.
        if (status.ok()) status = db->Put(write, "k", std::string(32761 - 32 - 7 - 18, 'x'));
        if (status.ok()) status = db->Put(write, "LW10-1", "9137");
        delete db;
    }
    std::puts(status.ToString().c_str());
    return status.ok() ? 0 : 1;
}
