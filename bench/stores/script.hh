// A script as bench/mix writes it, read from its bytes statement by statement.
//
// No script of bench/mix has a quote, a carriage return, a byte order mark or a cursor, so each of them is refused.
#pragma once

#include <charconv>
#include <cstdint>
#include <cstdio>
#include <cstdlib>
#include <cstring>
#include <string>
#include <string_view>
#include <vector>

/// Ends the client with a message on standard error.
[[noreturn]] inline void fail(const std::string& message) {
    std::fprintf(stderr, "%s\n", message.c_str());
    std::exit(1);
}

/// The letters say what each column holds: n for a number, t for a text.
struct Table {
    std::string name;
    std::string kinds;
};

using Tables = std::vector<Table>;

enum class Word { begin, get, put, del, scan, commit, rollback, gc };

struct Statement {
    unsigned place;    // its record, counted from 1
    unsigned session;  // from 1 to 64
    Word word;
    unsigned table;      // its index among the tables
    std::uint64_t key;   // of a scan the least key
    std::uint64_t high;  // of a scan the greatest key
    std::string row;     // of a put, as stores keep it: 8 bytes for a number; for a text its length in a byte, and then its bytes
};

/// The most sessions of a script.
constexpr unsigned SESSIONS = 64;

class Script {
  public:
    /// Reads the table records.
    explicit Script(std::string text) : bytes(std::move(text)), at(bytes.data()), end(at + bytes.size()) {
        if (contains('"') || contains('\r') || (!bytes.empty() && bytes.back() != '\n')) fail("no script as bench/mix writes it");
        bool has_texts = false;
        if (starts_with("version,2\n")) {
            has_texts = true;
            begin_record();
            skip_record();
        }
        while (starts_with("table,")) {
            begin_record();
            field();
            const std::string_view name = field(), columns = field();
            declared.push_back({std::string(name), has_texts ? std::string(columns) : std::string(number<unsigned>(columns), 'n')});
            end_record();
        }
    }

    Script(const Script&) = delete;

    const Tables& tables() const { return declared; }

    /// Reads the next statement. Returns false at the end.
    bool next(Statement& statement) {
        if (at == end) return false;
        begin_record();
        statement.place = place;
        statement.session = number<unsigned>(field());
        if (statement.session < 1 || statement.session > SESSIONS) refuse();
        statement.word = word_of(field());
        read_rest(statement);
        return true;
    }

  private:
    void read_rest(Statement& statement) {
        switch (statement.word) {
        case Word::begin:
        case Word::gc: skip_record(); return;
        case Word::commit:
        case Word::rollback: end_record(); return;
        case Word::get:
        case Word::del: read_key(statement); break;
        case Word::scan:
            read_key(statement);
            statement.high = number<std::uint64_t>(field());
            break;
        case Word::put:
            read_key(statement);
            read_row(statement);
            break;
        }
        end_record();
    }

    void read_key(Statement& statement) {
        statement.table = table_of(field());
        statement.key = number<std::uint64_t>(field());
    }

    void read_row(Statement& statement) {
        statement.row.clear();
        for (const char kind : declared[statement.table].kinds) {
            const std::string_view text = field();
            if (kind == 'n') {
                const auto value = number<std::int64_t>(text);
                statement.row.append(reinterpret_cast<const char*>(&value), sizeof value);
            } else {
                if (text.size() > 64) refuse();
                statement.row.push_back(static_cast<char>(text.size()));
                statement.row.append(text);
            }
        }
    }

    unsigned table_of(std::string_view name) {
        for (unsigned i = 0; i < declared.size(); i++)
            if (declared[i].name == name) return i;
        refuse();
    }

    Word word_of(std::string_view text) {
        constexpr std::pair<std::string_view, Word> WORDS[] = {
            {"get", Word::get},     {"put", Word::put},       {"scan", Word::scan},         {"begin", Word::begin},
            {"del", Word::del},     {"commit", Word::commit}, {"rollback", Word::rollback}, {"gc", Word::gc}};
        for (const auto& [word, meaning] : WORDS)
            if (word == text) return meaning;
        refuse();
    }

    template <class Number> Number number(std::string_view text) {
        Number value = 0;
        const char* const last = text.data() + text.size();
        const auto [stop, fault] = std::from_chars(text.data(), last, value);
        if (fault != std::errc() || stop != last || text.empty()) refuse();
        return value;
    }

    bool contains(char byte) const { return std::memchr(at, byte, end - at); }

    bool starts_with(std::string_view text) const { return std::string_view(at, end - at).substr(0, text.size()) == text; }

    void begin_record() {
        place++;
        stop = static_cast<const char*>(std::memchr(at, '\n', end - at));
        is_over = false;
    }

    std::string_view field() {
        if (is_over) refuse();
        const char* const from = at;
        while (at < stop && *at != ',') at++;
        const std::string_view text(from, at - from);
        is_over = at == stop;
        at++;
        return text;
    }

    void end_record() {
        if (!is_over) refuse();
    }

    void skip_record() {
        at = stop + 1;
        is_over = true;
    }

    [[noreturn]] void refuse() const { fail("record " + std::to_string(place) + " is none that this client runs"); }

    std::string bytes;
    const char* at;
    const char* const end;
    const char* stop = nullptr;  // the end of the record
    bool is_over = false;        // whether all its fields were read
    unsigned place = 0;
    Tables declared;
};
