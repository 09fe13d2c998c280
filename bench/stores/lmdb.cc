// LMDB: a file in a folder, which should be in memory, mapped for writing and never synchronized. A table is a database of its own. The
// file's name is removed at once, so that its memory is free when the client ends.
//
// Any number of transactions read at their snapshots; one writes. A session's transaction reads until its first write, which takes the
// one writer. It is refused if another session has it (`open`), or if any commit came after the snapshot (`newer`), be it of other rows.
#include <lmdb.h>

#include "client.hh"

namespace {

void check(int code) {
    if (code) fail(std::string("LMDB: ") + mdb_strerror(code));
}

bool is_found(int code) {
    if (code != MDB_NOTFOUND) check(code);
    return code == 0;
}

class Lmdb {
  public:
    Lmdb(const Tables& tables, const char* folder) {
        check(mdb_env_create(&env));
        check(mdb_env_set_maxdbs(env, 64));
        check(mdb_env_set_maxreaders(env, SESSIONS + 1));
        check(mdb_env_set_mapsize(env, std::size_t(1) << 34));
        check(mdb_env_open(env, folder, MDB_NOSYNC | MDB_WRITEMAP | MDB_NOTLS, 0600));
        for (const char* const file : {"/data.mdb", "/lock.mdb"}) ::unlink((std::string(folder) + file).c_str());
        MDB_txn* const first = begin_writer();
        for (const Table& table : tables) {
            databases.emplace_back();
            check(mdb_dbi_open(first, table.name.c_str(), MDB_CREATE | MDB_INTEGERKEY, &databases.back()));
        }
        check(mdb_txn_commit(first));
    }

    void begin(unsigned session) { start(session); }

    bool get(unsigned session, unsigned table, std::uint64_t key, std::string& row) {
        const View view(*this, session);
        return find(view.transaction, table, key, &row);
    }

    Outcome put(unsigned session, unsigned table, std::uint64_t key, const std::string& row) {
        return write(session, [&](MDB_txn* transaction) {
            MDB_val at = key_of(key), value{row.size(), const_cast<char*>(row.data())};
            check(mdb_put(transaction, databases[table], &at, &value, 0));
        });
    }

    Outcome del(unsigned session, unsigned table, std::uint64_t key) {
        if (const View view(*this, session); !find(view.transaction, table, key, nullptr)) return Outcome::none;
        return write(session, [&](MDB_txn* transaction) {
            MDB_val at = key_of(key);
            check(mdb_del(transaction, databases[table], &at, nullptr));
        });
    }

    template <class Each> void scan(unsigned session, unsigned table, std::uint64_t low, std::uint64_t high, Each each) {
        const View view(*this, session);
        MDB_cursor* cursor;
        check(mdb_cursor_open(view.transaction, databases[table], &cursor));
        MDB_val at = key_of(low), value;
        for (bool found = is_found(mdb_cursor_get(cursor, &at, &value, MDB_SET_RANGE)); found;
             found = is_found(mdb_cursor_get(cursor, &at, &value, MDB_NEXT))) {
            std::uint64_t key;
            std::memcpy(&key, at.mv_data, sizeof key);
            if (key > high) break;
            each(key, std::string_view(static_cast<const char*>(value.mv_data), value.mv_size));
        }
        mdb_cursor_close(cursor);
    }

    void commit(unsigned session) {
        if (writing == session) check(mdb_txn_commit(writer));
        end(session);
    }

    void rollback(unsigned session) {
        if (writing == session) mdb_txn_abort(writer);
        end(session);
    }

    std::string held() const {
        MDB_stat sizes;
        check(mdb_env_stat(env, &sizes));
        return std::to_string(info().me_last_pgno + 1) + " pages of " + std::to_string(sizes.ms_psize / 1024) + " KiB";
    }

    static std::string version() {
        int major, minor, patch;
        mdb_version(&major, &minor, &patch);
        return "LMDB " + std::to_string(major) + "." + std::to_string(minor) + "." + std::to_string(patch);
    }

  private:
    /// What a session reads: its transaction, or a transaction that ends with the view.
    struct View {
        View(Lmdb& store, unsigned session) : store(store), is_own(!store.is_open[session]) {
            if (is_own) store.start(0);
            transaction = store.writing == session ? store.writer : store.readers[is_own ? 0 : session];
        }
        ~View() {
            if (is_own) store.end(0);
        }
        Lmdb& store;
        const bool is_own;
        MDB_txn* transaction;
    };

    /// A write of a session: in its transaction, or in one of its own.
    template <class Change> Outcome write(unsigned session, Change change) {
        if (writing != session) {
            if (writing) return Outcome::open;
            if (is_open[session] && mdb_txn_id(readers[session]) != info().me_last_txnid) return Outcome::newer;
            writer = begin_writer();
        }
        change(writer);
        if (!is_open[session]) {
            check(mdb_txn_commit(writer));
        } else if (writing != session) {
            writing = session;
            mdb_txn_reset(readers[session]);
        }
        return Outcome::stored;
    }

    bool find(MDB_txn* transaction, unsigned table, std::uint64_t key, std::string* row) {
        MDB_val at = key_of(key), value;
        if (!is_found(mdb_get(transaction, databases[table], &at, &value))) return false;
        if (row) row->assign(static_cast<const char*>(value.mv_data), value.mv_size);
        return true;
    }

    /// Begins to read. A session's reader is used again.
    void start(unsigned session) {
        if (readers[session])
            check(mdb_txn_renew(readers[session]));
        else
            check(mdb_txn_begin(env, nullptr, MDB_RDONLY, &readers[session]));
        is_open[session] = true;
    }

    void end(unsigned session) {
        if (writing == session && session)
            writing = 0;
        else
            mdb_txn_reset(readers[session]);
        is_open[session] = false;
    }

    MDB_txn* begin_writer() {
        MDB_txn* transaction;
        check(mdb_txn_begin(env, nullptr, 0, &transaction));
        return transaction;
    }

    MDB_envinfo info() const {
        MDB_envinfo now;
        check(mdb_env_info(env, &now));
        return now;
    }

    static MDB_val key_of(std::uint64_t& key) { return {sizeof key, &key}; }

    MDB_env* env = nullptr;
    std::vector<MDB_dbi> databases;
    std::array<MDB_txn*, SESSIONS + 1> readers{};  // by session; 0 reads outside of transactions
    std::array<bool, SESSIONS + 1> is_open{};
    MDB_txn* writer = nullptr;
    unsigned writing = 0;  // the session whose transaction writes, or 0
};

}  // namespace

int main(int count, char** words) { return serve<Lmdb>(count, words); }
