// Statements of SQLite's C library, prepared once, for the plain programs beside the desk.
#pragma once
#include <cstdio>
#include <cstdlib>
#include <optional>
#include <sqlite3.h>
#include <string>

inline void check(sqlite3 *db, int status) {
    if (status != SQLITE_OK && status != SQLITE_DONE && status != SQLITE_ROW) {
        std::fprintf(stderr, "sqlite: %s\n", sqlite3_errmsg(db));
        std::exit(1);
    }
}

class Statement {
public:
    Statement(sqlite3 *db, const char *sql) : db_(db) { check(db, sqlite3_prepare_v2(db, sql, -1, &statement_, nullptr)); }
    Statement(const Statement &) = delete;
    ~Statement() { sqlite3_finalize(statement_); }
    Statement &text(int at, const std::string &value) {
        sqlite3_bind_text(statement_, at, value.data(), static_cast<int>(value.size()), SQLITE_TRANSIENT);
        return *this;
    }
    Statement &number(int at, sqlite3_int64 value) {
        sqlite3_bind_int64(statement_, at, value);
        return *this;
    }
    Statement &number_or_null(int at, std::optional<sqlite3_int64> value) {
        if (value) {
            return number(at, *value);
        }
        sqlite3_bind_null(statement_, at);
        return *this;
    }
    bool step() {
        int status = sqlite3_step(statement_);
        check(db_, status);
        return status == SQLITE_ROW;
    }
    sqlite3_int64 column(int at) { return sqlite3_column_int64(statement_, at); }
    std::optional<sqlite3_int64> column_or_null(int at) {
        return sqlite3_column_type(statement_, at) == SQLITE_NULL ? std::nullopt : std::optional(column(at));
    }
    std::string column_text(int at) { return reinterpret_cast<const char *>(sqlite3_column_text(statement_, at)); }
    void reset() { sqlite3_reset(statement_); }
    void run() {
        step();
        reset();
    }

private:
    sqlite3 *db_;
    sqlite3_stmt *statement_ = nullptr;
};
