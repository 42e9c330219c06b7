// What a plain C++ program over libsqlite3 does for commands in order: the measure beside the desk's own speed over a file.
//
// plain_desk DB PANELS POINTS COMMANDS [PORT]: delivers so many commands to a new database of the desk's tables, each in a
// transaction of its own at the same durability, with statements that are prepared once: it reads the panel's next
// number, the row under the number and the places of the point, writes the row, the place and the next number, drops
// the row that falls out, and prints the reply. With a port of the loopback it makes no commands itself: it takes them as
// requests over HTTP, one connection after another, as `desk serve` does, and answers each with its reply. It takes what
// the load sends as it stands, and looks for nothing wrong in it.
#include "plain_loopback.h"
#include "plain_sqlite.h"
#include <cstdio>
#include <cstdlib>
#include <cstring>
#include <string>

namespace {

constexpr int kKept = 1000;

const char *const kTables =
    "PRAGMA journal_mode = WAL; PRAGMA synchronous = FULL;"
    "CREATE TABLE panel (name TEXT PRIMARY KEY NOT NULL, next INTEGER NOT NULL CHECK (next >= 1)) STRICT;"
    "CREATE TABLE command (panel TEXT NOT NULL, number INTEGER NOT NULL, point TEXT NOT NULL, priority INTEGER NOT NULL,"
    " value INTEGER, state INTEGER NOT NULL CHECK (state >= 0 AND state <= 2), a INTEGER, b INTEGER,"
    " PRIMARY KEY (panel, number)) STRICT;"
    "CREATE TABLE place (point TEXT NOT NULL, priority INTEGER NOT NULL CHECK (priority >= 1 AND priority <= 16),"
    " value INTEGER NOT NULL, PRIMARY KEY (point, priority)) STRICT;";

struct Desk {
    explicit Desk(sqlite3 *db)
        : begin(db, "BEGIN IMMEDIATE"), commit(db, "COMMIT"), next(db, "SELECT next FROM panel WHERE name = ?1"),
          row(db, "SELECT state, a, b FROM command WHERE panel = ?1 AND number = ?2"),
          places(db, "SELECT priority, value FROM place WHERE point = ?1 ORDER BY priority"),
          put_row(db, "INSERT INTO command VALUES (?1, ?2, ?3, ?4, ?5, 1, ?6, ?7)"),
          put_place(db, "INSERT INTO place VALUES (?1, ?2, ?3) ON CONFLICT DO UPDATE SET value = ?3"),
          put_next(db, "INSERT INTO panel VALUES (?1, ?2) ON CONFLICT DO UPDATE SET next = ?2"),
          drop(db, "DELETE FROM command WHERE panel = ?1 AND number < ?2") {}
    Statement begin, commit, next, row, places, put_row, put_place, put_next, drop;

    std::string command(const std::string &panel, sqlite3_int64 number, const std::string &point, int priority, sqlite3_int64 value) {
        begin.run();
        next.text(1, panel);
        sqlite3_int64 front = next.step() ? next.column(0) : 1;
        next.reset();
        row.text(1, panel).number(2, number);
        bool is_known = row.step();
        row.reset();
        if (is_known || number != front) {
            std::exit(1);
        }
        int at = priority;
        sqlite3_int64 present = value;
        places.text(1, point);
        while (places.step()) {
            if (places.column(0) < at) {
                at = static_cast<int>(places.column(0));
                present = places.column(1);
            }
        }
        places.reset();
        put_row.text(1, panel).number(2, number).text(3, point).number(4, priority).number(5, value).number(6, present).number(7, at);
        put_row.run();
        put_place.text(1, point).number(2, priority).number(3, value).run();
        put_next.text(1, panel).number(2, number + 1).run();
        drop.text(1, panel).number(2, number + 1 - kKept).run();
        commit.run();
        char reply[128];
        int length = std::snprintf(reply, sizeof reply, "{\"answer\":\"done\",\"number\":%lld,\"present\":%lld,\"priority\":%d}\n",
                                   static_cast<long long>(number), static_cast<long long>(present), at);
        return std::string(reply, length);
    }
};

// The text behind this key, up to the next quote, comma or brace.
std::string member(const std::string &text, const char *key) {
    size_t from = text.find(key);
    if (from == std::string::npos) {
        std::exit(1);
    }
    from += std::strlen(key);
    return text.substr(from, text.find_first_of("\",}", from) - from);
}

std::string response_to(Desk &desk, const std::string &request) {
    size_t from = std::strlen("POST /panels/");
    std::string panel = request.substr(from, request.find('/', from) - from);
    std::string body = desk.command(panel, std::stoll(member(request, "\"number\":")), member(request, "\"point\":\""),
                                    std::stoi(member(request, "\"priority\":")), std::stoll(member(request, "\"value\":")));
    return "HTTP/1.1 200 OK\r\nContent-Type: application/json\r\nContent-Length: " + std::to_string(body.size()) +
           "\r\nConnection: close\r\n\r\n" + body;
}

// Commands in each panel's number order, the same as those of the bench.
void deliver(Desk &desk, int panels, int points, int commands) {
    for (int index = 0; index < commands; ++index) {
        int panel = index % panels, number = index / panels + 1, point = (panel * points / panels + number) % points;
        std::string reply = desk.command("PANEL-" + std::to_string(panel + 1), number, "ROOM-" + std::to_string(point + 1), 8,
                                         500 + index * 7 % 3001);
        std::fwrite(reply.data(), 1, reply.size(), stdout);
    }
}

}  // namespace

int main(int count, char **words) {
    if (count != 5 && count != 6) {
        std::fputs("plain_desk DB PANELS POINTS COMMANDS [PORT]\n", stderr);
        return 2;
    }
    int panels = std::atoi(words[2]), points = std::atoi(words[3]), commands = std::atoi(words[4]);
    sqlite3 *db = nullptr;
    check(nullptr, sqlite3_open(words[1], &db));
    check(db, sqlite3_exec(db, kTables, nullptr, nullptr, nullptr));
    {
        Desk desk(db);
        if (count == 6) {
            serve_each(std::atoi(words[5]), commands, [&](const std::string &request) { return response_to(desk, request); });
        } else {
            deliver(desk, panels, points, commands);
        }
    }
    sqlite3_close(db);
}
