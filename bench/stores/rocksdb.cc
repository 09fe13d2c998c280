// RocksDB: a TransactionDB with all its files in memory, without a log, compression and waiting for locks. A key begins with its table.
//
// A session's transaction takes a snapshot when it begins. A write locks its key: it is refused if another transaction has the lock
// (`open`), or if the key was written after the snapshot (`newer`).
#include <rocksdb/db.h>
#include <rocksdb/env.h>
#include <rocksdb/utilities/transaction.h>
#include <rocksdb/utilities/transaction_db.h>
#include <rocksdb/version.h>

#include <memory>

#include "client.hh"

namespace {

using rocksdb::Slice;
using rocksdb::Status;

void check(const Status& status) {
    if (!status.ok()) fail("RocksDB: " + status.ToString());
}

bool is_found(const Status& status) {
    if (!status.IsNotFound()) check(status);
    return status.ok();
}

Outcome outcome_of(const Status& status) {
    if (status.IsTimedOut()) return Outcome::open;
    if (status.IsBusy()) return Outcome::newer;
    check(status);
    return Outcome::stored;
}

/// A table's number, and then a key's bytes, the highest first: so keys are in order.
class Key {
  public:
    Key(unsigned table, std::uint64_t key) {
        bytes[0] = static_cast<char>(table);
        const std::uint64_t swapped = __builtin_bswap64(key);
        std::memcpy(bytes + 1, &swapped, sizeof swapped);
    }

    operator Slice() const { return {bytes, sizeof bytes}; }

    static std::uint64_t number_of(const Slice& key) {
        std::uint64_t swapped;
        std::memcpy(&swapped, key.data() + 1, sizeof swapped);
        return __builtin_bswap64(swapped);
    }

  private:
    char bytes[9];
};

class Rocks {
  public:
    Rocks(const Tables&, const char* folder) : env(rocksdb::NewMemEnv(rocksdb::Env::Default())) {
        rocksdb::Options options;
        options.env = env.get();
        options.create_if_missing = true;
        options.compression = rocksdb::kNoCompression;
        rocksdb::TransactionDBOptions locks;
        locks.transaction_lock_timeout = 0;
        locks.default_lock_timeout = 0;
        rocksdb::TransactionDB* opened;
        check(rocksdb::TransactionDB::Open(options, locks, folder, &opened));
        db.reset(opened);
        writes.disableWAL = true;
        begins.set_snapshot = true;
    }

    void begin(unsigned session) {
        // The session's last transaction is used again.
        rocksdb::Transaction* const last = transactions[session].release();
        transactions[session].reset(db->BeginTransaction(writes, begins, last));
        is_open[session] = true;
    }

    bool get(unsigned session, unsigned table, std::uint64_t key, std::string& row) {
        const rocksdb::ReadOptions reads = view(session);
        const Key at(table, key);
        return is_found(is_open[session] ? transactions[session]->Get(reads, at, &row) : db->Get(reads, at, &row));
    }

    Outcome put(unsigned session, unsigned table, std::uint64_t key, const std::string& row) {
        return outcome_of(is_open[session] ? transactions[session]->Put(Key(table, key), row) : db->Put(writes, Key(table, key), row));
    }

    Outcome del(unsigned session, unsigned table, std::uint64_t key) {
        if (!get(session, table, key, deleted)) return Outcome::none;
        return outcome_of(is_open[session] ? transactions[session]->Delete(Key(table, key)) : db->Delete(writes, Key(table, key)));
    }

    template <class Each> void scan(unsigned session, unsigned table, std::uint64_t low, std::uint64_t high, Each each) {
        const rocksdb::ReadOptions reads = view(session);
        const Key last(table, high);
        const std::unique_ptr<rocksdb::Iterator> rows(
            is_open[session] ? transactions[session]->GetIterator(reads) : db->NewIterator(reads));
        for (rows->Seek(Key(table, low)); rows->Valid() && rows->key().compare(last) <= 0; rows->Next())
            each(Key::number_of(rows->key()), std::string_view(rows->value().data(), rows->value().size()));
        check(rows->status());
    }

    void commit(unsigned session) {
        check(transactions[session]->Commit());
        end(session);
    }

    void rollback(unsigned session) {
        check(transactions[session]->Rollback());
        end(session);
    }

    std::string held() const {
        std::uint64_t entries = number_of("rocksdb.num-entries-active-mem-table") + number_of("rocksdb.num-entries-imm-mem-tables");
        std::vector<rocksdb::LiveFileMetaData> files;
        db->GetLiveFilesMetaData(&files);
        for (const auto& file : files) entries += file.num_entries;
        return std::to_string(entries) + " versions";
    }

    static std::string version() { return "RocksDB " + rocksdb::GetRocksVersionAsString(); }

  private:
    void end(unsigned session) {
        transactions[session]->ClearSnapshot();
        is_open[session] = false;
    }

    rocksdb::ReadOptions view(unsigned session) const {
        rocksdb::ReadOptions reads;
        if (is_open[session]) reads.snapshot = transactions[session]->GetSnapshot();
        return reads;
    }

    std::uint64_t number_of(const char* property) const {
        std::uint64_t number = 0;
        if (!db->GetIntProperty(property, &number)) fail(std::string("RocksDB has no ") + property);
        return number;
    }

    // A transaction ends before its database, and the database before its files.
    std::unique_ptr<rocksdb::Env> env;
    std::unique_ptr<rocksdb::TransactionDB> db;
    std::array<std::unique_ptr<rocksdb::Transaction>, SESSIONS + 1> transactions;
    std::array<bool, SESSIONS + 1> is_open{};
    rocksdb::WriteOptions writes;
    rocksdb::TransactionOptions begins;
    std::string deleted;
};

}  // namespace

int main(int count, char** words) { return serve<Rocks>(count, words); }
