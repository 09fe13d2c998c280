// What the client of each store does: it reads a script, asks the store, and prints the replies.
//
// A client's class has what follows. A call of a session that has begun no transaction is a transaction of its own.
//
//     Store(const Tables& tables, const char* folder)
//     void begin(unsigned session)                                    takes the snapshot
//     bool get(unsigned session, unsigned table, std::uint64_t key, std::string& row)
//     Outcome put(unsigned session, unsigned table, std::uint64_t key, const std::string& row)
//     Outcome del(unsigned session, unsigned table, std::uint64_t key)
//     void scan(unsigned session, unsigned table, std::uint64_t low, std::uint64_t high, Each each)
//     void commit(unsigned session), void rollback(unsigned session)
//     std::string held()                                              what the store holds now
//     static std::string version()
#pragma once

#include <array>

#include "replies.hh"

/// What becomes of a write: it is stored, or there is no row to delete, or it is refused and changes nothing.
enum class Outcome { stored, none, open, newer };

template <class Store> class Client {
  public:
    Client(Script& script, Store& store) : script(script), store(store) {}

    void run() {
        while (script.next(statement))
            if (statement.word != Word::gc) reply();
    }

  private:
    struct Session {
        bool is_open = false;
        bool has_written = false;
    };

    void reply() {
        Session& session = sessions[statement.session];
        replies.begin(statement);
        if (!session.is_open && statement.word != Word::begin) replies.at(commits);
        switch (statement.word) {
        case Word::begin: begin(session); break;
        case Word::get: get(); break;
        case Word::put: written(session, store.put(statement.session, statement.table, statement.key, statement.row), ",stored"); break;
        case Word::del: written(session, store.del(statement.session, statement.table, statement.key), ",gone"); break;
        case Word::scan: scan(); return;
        case Word::commit: commit(session); break;
        case Word::rollback: rollback(session); break;
        case Word::gc: break;
        }
        replies.end();
    }

    void begin(Session& session) {
        store.begin(statement.session);
        session = {true, false};
        replies.answer(",begun", commits);
    }

    void get() {
        if (store.get(statement.session, statement.table, statement.key, row)) {
            replies.answer(",row");
            replies.row(script.tables()[statement.table], row);
        } else {
            replies.answer(",none");
        }
    }

    void written(Session& session, Outcome outcome, std::string_view stored) {
        switch (outcome) {
        case Outcome::none: replies.answer(",none"); return;
        case Outcome::open: replies.answer(",refused,open"); return;
        case Outcome::newer: replies.answer(",refused,newer"); return;
        case Outcome::stored: break;
        }
        replies.answer(stored);
        if (session.is_open)
            session.has_written = true;
        else
            replies.answer(",committed", ++commits);
    }

    void scan() {
        keys.clear();
        rows.clear();
        ends.clear();
        store.scan(statement.session, statement.table, statement.key, statement.high, [&](std::uint64_t key, std::string_view row) {
            keys.push_back(key);
            rows.append(row);
            ends.push_back(rows.size());
        });
        replies.answer(",rows", keys.size());
        replies.end();
        std::size_t from = 0;
        for (std::size_t i = 0; i < keys.size(); i++) {
            replies.begin(statement);
            replies.answer(",row", keys[i]);
            replies.row(script.tables()[statement.table], std::string_view(rows).substr(from, ends[i] - from));
            replies.end();
            from = ends[i];
        }
    }

    void commit(Session& session) {
        store.commit(statement.session);
        if (session.has_written)
            replies.answer(",committed", ++commits);
        else
            replies.answer(",ended");
        session = {};
    }

    void rollback(Session& session) {
        store.rollback(statement.session);
        replies.answer(",undone");
        session = {};
    }

    Script& script;
    Store& store;
    Statement statement{};
    Replies replies;
    std::uint64_t commits = 0;
    std::array<Session, SESSIONS + 1> sessions{};
    std::string row;
    // The rows of a scan: their number is printed before them.
    std::vector<std::uint64_t> keys;
    std::vector<std::size_t> ends;
    std::string rows;
};

inline std::string read_all() {
    std::string text;
    std::size_t size = 0;
    for (;;) {
        text.resize(size + (1 << 20));
        const auto got = ::read(STDIN_FILENO, text.data() + size, text.size() - size);
        if (got < 0) fail("the script cannot be read");
        size += got;
        if (got == 0) break;
    }
    text.resize(size);
    return text;
}

/// CLIENT FOLDER < SCRIPT > REPLIES. With --held a line on standard error says what the store holds before what is open ends.
template <class Store> int serve(int count, char** words) {
    const std::string_view first = count > 1 ? words[1] : "", second = count > 2 ? words[2] : "";
    if (count == 2 && first == "--version") {
        std::puts(Store::version().c_str());
        return 0;
    }
    if (count != 2 && !(count == 3 && second == "--held"))
        fail(std::string("usage: ") + words[0] + " FOLDER [--held] < SCRIPT > REPLIES, or --version");
    Script script(read_all());
    Store store(script.tables(), words[1]);
    Client<Store>(script, store).run();
    if (count == 3) std::fprintf(stderr, "%s\n", store.held().c_str());
    return 0;
}
