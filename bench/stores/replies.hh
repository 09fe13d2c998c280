// Replies as a `replay` of hybridgc prints them (docs/FORMATS.md), except that a refusal does not say who is in the way.
#pragma once

#include <unistd.h>

#include "script.hh"

class Replies {
  public:
    ~Replies() { flush(); }

    /// Begins the reply to a statement.
    void begin(const Statement& statement) {
        number(statement.session);
        add(',', statement.place);
    }

    /// What comes before the answer outside of a transaction.
    void at(std::uint64_t snapshot) {
        text += ",at";
        add(',', snapshot);
    }

    void answer(std::string_view words) { text.append(words); }

    void answer(std::string_view words, std::uint64_t value) {
        text.append(words);
        add(',', value);
    }

    /// The columns of a row.
    void row(const Table& table, std::string_view row) {
        const char* at = row.data();
        for (const char kind : table.kinds) {
            if (kind == 'n') {
                std::int64_t value;
                std::memcpy(&value, at, sizeof value);
                add(',', value);
                at += sizeof value;
            } else {
                const auto length = static_cast<unsigned char>(*at);
                text += ',';
                text.append(at + 1, length);
                at += 1 + length;
            }
        }
    }

    /// Ends a record of the reply.
    void end() {
        text += '\n';
        if (text.size() > FULL) flush();
    }

  private:
    static constexpr std::size_t FULL = 1 << 16;

    template <class Number> void number(Number value) {
        char digits[20];
        text.append(digits, std::to_chars(digits, digits + sizeof digits, value).ptr);
    }

    template <class Number> void add(char before, Number value) {
        text += before;
        number(value);
    }

    void flush() {
        for (std::string_view rest = text; !rest.empty();) {
            const auto written = ::write(STDOUT_FILENO, rest.data(), rest.size());
            if (written < 0) fail("the replies cannot be written");
            rest.remove_prefix(written);
        }
        text.clear();
    }

    std::string text;
};
