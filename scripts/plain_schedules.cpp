// What a plain C++ program over libsqlite3 does for ticks, imports, reports and commands: the measure beside the desk's own.
//
// plain_schedules replay BUILDING LIST | serve BUILDING DB PORT REQUESTS | import BUILDING DB CSV | value_now
//
// It follows docs/RULES.md. All that counts is kept in memory: priority arrays, what schedules show, entries, each panel's
// last 1,000 rows. A database has the desk's tables, which are read once and then only written, one commit a delivery, at
// the desk's durability and by statements that are prepared once. BUILDING is the text that bench_clock.py writes; the zone
// is UTC0. It takes what it is reported as it stands, and looks for nothing wrong in it.
#include "plain_building.h"
#include "plain_loopback.h"
#include "plain_sqlite.h"
#include <chrono>
#include <cstring>
#include <iostream>
#include <string_view>

namespace {

// ---- the tables

const char *const kTables =
    "PRAGMA journal_mode = WAL; PRAGMA synchronous = FULL;"
    "CREATE TABLE IF NOT EXISTS desk (id INTEGER PRIMARY KEY CHECK (id = 1), version INTEGER NOT NULL, last INTEGER) STRICT;"
    "CREATE TABLE IF NOT EXISTS panel (name TEXT PRIMARY KEY NOT NULL, next INTEGER NOT NULL CHECK (next >= 1)) STRICT;"
    "CREATE TABLE IF NOT EXISTS command (panel TEXT NOT NULL, number INTEGER NOT NULL, point TEXT NOT NULL, priority INTEGER NOT NULL,"
    " value INTEGER, state INTEGER NOT NULL CHECK (state >= 0 AND state <= 2), a INTEGER, b INTEGER,"
    " PRIMARY KEY (panel, number)) STRICT;"
    "CREATE TABLE IF NOT EXISTS place (point TEXT NOT NULL, priority INTEGER NOT NULL CHECK (priority >= 1 AND priority <= 16),"
    " value INTEGER NOT NULL, PRIMARY KEY (point, priority)) STRICT;"
    "CREATE TABLE IF NOT EXISTS shown (schedule TEXT PRIMARY KEY NOT NULL, value INTEGER) STRICT;"
    "CREATE TABLE IF NOT EXISTS imported (calendar TEXT NOT NULL, entry TEXT NOT NULL, PRIMARY KEY (calendar, entry)) STRICT;"
    "INSERT OR IGNORE INTO desk VALUES (1, 2, NULL);";

// The tables in a database: what a delivery writes stands in one transaction, which the first write begins.
class Tables {
public:
    explicit Tables(sqlite3 *db)
        : begin_(db, "BEGIN IMMEDIATE"), commit_(db, "COMMIT"), last_(db, "UPDATE desk SET last = ?1"),
          next_(db, "INSERT INTO panel VALUES (?1, ?2) ON CONFLICT DO UPDATE SET next = ?2"),
          row_(db, "INSERT INTO command VALUES (?1, ?2, ?3, ?4, ?5, ?6, ?7, ?8) ON CONFLICT DO UPDATE SET state = ?6, a = ?7, b = ?8"),
          drop_rows_(db, "DELETE FROM command WHERE panel = ?1 AND number < ?2"),
          place_(db, "INSERT INTO place VALUES (?1, ?2, ?3) ON CONFLICT DO UPDATE SET value = ?3"),
          drop_place_(db, "DELETE FROM place WHERE point = ?1 AND priority = ?2"),
          shown_(db, "INSERT INTO shown VALUES (?1, ?2) ON CONFLICT DO UPDATE SET value = ?2"),
          drop_shown_(db, "DELETE FROM shown WHERE schedule = ?1"), imported_(db, "INSERT INTO imported VALUES (?1, ?2)") {}

    void put_last(int64_t at) { writing(last_).number(1, at).run(); }
    void put_next(const Panel &panel) { writing(next_).text(1, panel.name).number(2, panel.next).run(); }
    void drop_rows(const Panel &panel) { writing(drop_rows_).text(1, panel.name).number(2, panel.next - kKept).run(); }
    void put_imported(const Calendar &calendar, const std::string &entry) {
        writing(imported_).text(1, calendar.name).text(2, entry).run();
    }
    void put_row(const Panel &panel, int64_t number, const Row &row) {
        Statement &put = writing(row_).text(1, panel.name).number(2, number).text(3, row.point).number(4, row.priority);
        put.number_or_null(5, row.value).number(6, row.state);
        put.number_or_null(7, row.state == Parked ? Value() : row.a);
        put.number_or_null(8, row.state == Done ? Value(row.b) : Value()).run();
    }
    void put_place(const Point &point, int priority) {
        Value value = point.places[priority];
        (value ? writing(place_).number(3, *value) : writing(drop_place_)).text(1, point.name).number(2, priority).run();
    }
    void put_shown(const Schedule &schedule) {
        (schedule.shown ? writing(shown_).number_or_null(2, *schedule.shown) : writing(drop_shown_)).text(1, schedule.name).run();
    }
    void commit() {
        if (is_writing_) {
            commit_.run();
            is_writing_ = false;
        }
    }

private:
    Statement &writing(Statement &statement) {
        if (!is_writing_) {
            begin_.run();
            is_writing_ = true;
        }
        return statement;
    }
    Statement begin_, commit_, last_, next_, row_, drop_rows_, place_, drop_place_, shown_, drop_shown_, imported_;
    bool is_writing_ = false;
};

// ---- requests

// The members of a request or a line, whichever it has.
struct Members {
    std::string panel, point, import;
    Value number, priority, value, skip, tick;
};

// A JSON text, up to its closing quote.
std::string text_of(const char *&at) {
    std::string text;
    for (; *at != '"'; ++at) {
        at += *at == '\\';
        text.push_back(at[-1] == '\\' && *at == 'n' ? '\n' : *at);
    }
    ++at;
    return text;
}

// The members of an object of texts, whole numbers and nulls.
Members members_of(const char *at) {
    Members members;
    while (*at == '{' || *at == ',') {
        at = std::strchr(at, '"') + 1;
        const char *end = std::strchr(at, '"');
        std::string_view key(at, end - at);
        at = end + 2 + std::strspn(end + 2, " ");
        if (*at == '"') {
            (key == "panel" ? members.panel : key == "point" ? members.point : members.import) = text_of(++at);
        } else if (*at == 'n') {
            at += 4;
        } else {
            char *after;
            Value &member = key == "number" ? members.number : key == "priority" ? members.priority : key == "value" ? members.value
                : key == "skip" || key == "upto" ? members.skip : members.tick;
            member = std::strtoll(at, &after, 10);
            at = after;
        }
    }
    return members;
}

// A reply of an answer and numbers under their keys.
std::string reply_of(const char *answer, std::initializer_list<std::pair<const char *, int64_t>> numbers = {}) {
    std::string reply = std::string("{\"answer\":\"") + answer + '"';
    for (const auto &[key, number] : numbers) {
        reply.append(",\"").append(key).append("\":").append(std::to_string(number));
    }
    return reply + '}';
}

// ---- the desk

class Desk {
public:
    Desk(Building building, Tables *tables) : building_(std::move(building)), tables_(tables) {}

    void read(sqlite3 *db);
    std::string command(const std::string &name, int64_t number, const Row &content);
    std::string skip(const std::string &name, int64_t upto);
    std::string tick(int64_t at);
    std::string import(const std::string &csv);
    std::string point(const std::string &name) const;
    std::string report(const std::string &day) const;
    std::string point_lines() const;

    std::string deliver(const Members &members) {
        return !members.import.empty() ? import(members.import) : members.tick ? tick(*members.tick)
            : members.skip ? skip(members.panel, *members.skip)
            : command(members.panel, *members.number, Row{members.point, members.priority.value_or(kPlaces), members.value});
    }

private:
    int rule_against(const Panel &panel, const Row &row) const;
    void act(Panel &panel, int64_t number, Row &row);
    void advance(Panel &panel, int64_t upto);
    std::vector<bool> calendars_on(const Date &day) const;
    int64_t settle();
    void commit() { if (tables_) { tables_->commit(); } }
    template <typename... Given, typename... Values> void write(void (Tables::*put)(Given...), Values &&...values) {
        if (tables_) {
            (tables_->*put)(std::forward<Values>(values)...);
        }
    }

    Building building_;
    Tables *tables_;
    std::optional<int64_t> last_;
};

// What the tables of a database have.
void Desk::read(sqlite3 *db) {
    Statement desk(db, "SELECT last FROM desk"), panels(db, "SELECT name, next FROM panel"),
        shown(db, "SELECT schedule, value FROM shown"), places(db, "SELECT point, priority, value FROM place"),
        imported(db, "SELECT calendar, entry FROM imported"), rows(db, "SELECT panel, number, point, priority, value, state, a, b FROM command");
    last_ = desk.step() ? desk.column_or_null(0) : std::nullopt;
    while (panels.step()) {
        building_.panels[building_.panel_at.at(panels.column_text(0))].next = panels.column(1);
    }
    while (rows.step()) {
        auto state = static_cast<State>(rows.column(5));
        Row row{rows.column_text(2), rows.column(3), rows.column_or_null(4), state, rows.column(6), rows.column(7)};
        building_.panels[building_.panel_at.at(rows.column_text(0))].rows.emplace(rows.column(1), row);
    }
    while (places.step()) {
        building_.points[building_.point_at.at(places.column_text(0))].places[places.column(1)] = places.column(2);
    }
    while (shown.step()) {
        building_.schedules[building_.schedule_at.at(shown.column_text(0))].shown = shown.column_or_null(1);
    }
    while (imported.step()) {
        building_.calendars[building_.calendar_at.at(imported.column_text(0))].add(imported.column_text(1));
    }
}

// The first rule that is against a command, by its number from 1; 0 for none.
int Desk::rule_against(const Panel &panel, const Row &row) const {
    int at = found(building_.point_at, row.point);
    if (at < 0 || !panel.granted[at]) {
        return at < 0 ? 1 : 2;
    }
    if (row.priority < 1 || row.priority > kPlaces || row.priority == 6) {
        return row.priority == 6 ? 4 : 3;
    }
    const Point &point = building_.points[at];
    return !panel.priorities[row.priority] ? 5 : row.value && (*row.value < point.low || *row.value > point.high) ? 6 : 0;
}

void Desk::act(Panel &panel, int64_t number, Row &row) {
    int rule = rule_against(panel, row);
    row.state = rule ? Refused : Done;
    if (rule) {
        row.a = rule;
    } else {
        Point &point = building_.points[building_.point_at.at(row.point)];
        point.places[row.priority] = row.value;
        std::tie(row.a, row.b) = point.present();
        write(&Tables::put_place, point, row.priority);
    }
    write(&Tables::put_row, panel, number, row);
}

// Acts on what came below a number and behind it without a gap, and drops the rows that fall out.
void Desk::advance(Panel &panel, int64_t upto) {
    int64_t first = panel.next;
    for (auto row = panel.rows.find(panel.next); panel.next < upto || row != panel.rows.end(); row = panel.rows.find(panel.next)) {
        if (row != panel.rows.end()) {
            act(panel, panel.next, row->second);
        }
        ++panel.next;
    }
    write(&Tables::put_next, panel);
    for (int64_t number = std::max<int64_t>(first - kKept, 1); number < panel.next - kKept; ++number) {
        panel.rows.erase(number);
    }
    if (panel.next - kKept > 1) {
        write(&Tables::drop_rows, panel);
    }
}

std::string Desk::command(const std::string &name, int64_t number, const Row &content) {
    int at = found(building_.panel_at, name);
    if (at < 0 || number < 1 || number > kMostNumber) {
        return reply_of(at < 0 ? "no_panel" : "bad_number");
    }
    Panel &panel = building_.panels[at];
    auto row = panel.rows.find(number);
    if (row == panel.rows.end()) {
        if (number < panel.next) {
            return reply_of(number < panel.next - kKept ? "forgotten" : "skipped", {{"number", number}});
        }
        if (number >= panel.next + kWindow) {
            return reply_of("too_far", {{"next", panel.next}, {"number", number}});
        }
        row = panel.rows.emplace(number, content).first;
        if (number == panel.next) {
            advance(panel, number);
        } else {
            write(&Tables::put_row, panel, number, row->second);
        }
        commit();
    } else if (row->second.point != content.point || row->second.priority != content.priority || row->second.value != content.value) {
        return reply_of("differs", {{"number", number}});
    }
    const Row &kept = row->second;
    return kept.state == Parked ? reply_of("parked", {{"next", panel.next}, {"number", number}})
        : kept.state == Done ? reply_of("done", {{"number", number}, {"present", kept.a}, {"priority", kept.b}})
        : "{\"answer\":\"refused\",\"number\":" + std::to_string(number) + ",\"rule\":\"X" + std::to_string(kept.a) + "\"}";
}

std::string Desk::skip(const std::string &name, int64_t upto) {
    int at = found(building_.panel_at, name);
    if (at < 0 || upto < 1 || upto > kMostNumber + 1) {
        return reply_of(at < 0 ? "no_panel" : "bad_number");
    }
    Panel &panel = building_.panels[at];
    if (upto > panel.next + kWindow) {
        return reply_of("too_far", {{"next", panel.next}, {"number", upto}});
    }
    if (upto > panel.next) {
        advance(panel, upto);
        commit();
    }
    return reply_of("skip", {{"next", panel.next}});
}

std::vector<bool> Desk::calendars_on(const Date &day) const {
    std::vector<bool> holds;
    for (const auto &calendar : building_.calendars) {
        auto holds_now = [&](const Entry &entry) { return entry.holds(day); };
        holds.push_back(std::any_of(calendar.entries.begin(), calendar.entries.end(), holds_now));
    }
    return holds;
}

// Has the schedules write what they say at the last tick, and tells to how many targets they wrote.
int64_t Desk::settle() {
    Date today = date_of(*last_ / kDay);
    auto calendars = calendars_on(today);
    std::vector<const Schedule *> due, leaving;
    for (auto &schedule : building_.schedules) {
        std::optional<Value> shown;
        if (schedule.period.holds(today)) {
            shown = schedule.value(calendars, today, static_cast<int>(*last_ % kDay));
        }
        if (shown != schedule.shown) {
            if (shown || schedule.releases) {
                (shown ? due : leaving).push_back(&schedule);
            }
            schedule.shown = shown;
            write(&Tables::put_shown, schedule);
        }
    }
    int64_t writes = 0;
    for (const auto *all : {&leaving, &due}) {
        for (const Schedule *schedule : *all) {
            for (int target : schedule->targets) {
                building_.points[target].places[schedule->priority] = schedule->shown.value_or(Value());
                write(&Tables::put_place, building_.points[target], schedule->priority);
                ++writes;
            }
        }
    }
    return writes;
}

std::string Desk::tick(int64_t at) {
    if (at < 0 || date_of(at / kDay).year > 2154) {
        return reply_of("bad_moment");
    }
    if (last_ && at <= *last_) {
        return reply_of("old", {{"writes", 0}});
    }
    last_ = at;
    int64_t writes = settle();
    write(&Tables::put_last, at);
    commit();
    return reply_of("tick", {{"writes", writes}});
}

// An import of the lines of a text, each a calendar and an entry, behind their header.
std::string Desk::import(const std::string &csv) {
    int64_t added = 0, known = 0;
    for (size_t from = csv.find('\n') + 1, end; from < csv.size(); from = end + 1) {
        end = csv.find('\n', from);
        size_t comma = csv.find(',', from);
        Calendar &calendar = building_.calendars[building_.calendar_at.at(csv.substr(from, comma - from))];
        std::string entry = csv.substr(comma + 1, end - comma - 1);
        if (calendar.add(entry)) {
            write(&Tables::put_imported, calendar, entry);
            ++added;
        } else {
            ++known;
        }
    }
    int64_t writes = last_ ? settle() : 0;
    commit();
    return "{\"added\":" + std::to_string(added) + ",\"answer\":\"import\",\"known\":" + std::to_string(known) +
        ",\"writes\":" + std::to_string(writes) + '}';
}

std::string Desk::point(const std::string &name) const {
    const Point &point = building_.points[building_.point_at.at(name)];
    std::string places;
    for (int priority = 1; priority <= kPlaces; ++priority) {
        places += (priority > 1 ? "," : "") + (point.places[priority] ? std::to_string(*point.places[priority]) : "null");
    }
    auto [present, priority] = point.present();
    return "{\"answer\":\"point\",\"places\":[" + places + "],\"point\":\"" + name + "\",\"present\":" + std::to_string(present) +
        ",\"priority\":" + std::to_string(priority) + '}';
}

std::string Desk::point_lines() const {
    std::string lines;
    char line[80];
    for (const auto &point : building_.points) {
        auto [present, priority] = point.present();
        const char *name = point.name.c_str();
        lines.append(line, std::snprintf(line, sizeof line, "POINT %-32s%12lld %2d\n", name, static_cast<long long>(present), priority));
    }
    return lines;
}

std::string Desk::report(const std::string &text) const {
    Date day = date_of(number_of(text));
    auto calendars = calendars_on(day);
    std::string report = "DAY " + text + ' ' + kWeekdays[day.weekday - 1] + '\n';
    char line[40];
    for (const auto &schedule : building_.schedules) {
        std::vector<int> times{0};
        auto add = [&](const DayList &list) { for (const auto &each : list.values) { times.push_back(each.time); } };
        add(schedule.weekly[day.weekday - 1]);
        for (const auto &exception : schedule.exceptions) {
            if (schedule.is_in_effect(exception, calendars, day)) {
                add(exception.times);
            }
        }
        std::sort(times.begin(), times.end());
        times.erase(std::unique(times.begin(), times.end()), times.end());
        report += "SCHEDULE " + schedule.name + (schedule.period.holds(day) ? " active\n" : " quiet\n");
        std::optional<Value> before;
        for (int time : times) {
            Value value = schedule.value(calendars, day, time);
            if (before != value) {
                std::string said = value ? std::to_string(*value) : "NULL";
                int second = time / 100, minute = second / 60;
                report.append(line, std::snprintf(line, sizeof line, "%02d:%02d:%02d.%02d %12s\n", minute / 60, minute % 60,
                                                  second % 60, time % 100, said.c_str()));
                before = value;
            }
        }
    }
    return report + point_lines();
}

// ---- runs

void replay(Desk &desk, const char *path) {
    std::ifstream list(path);
    for (std::string line; std::getline(list, line);) {
        std::string reply = desk.deliver(members_of(line.c_str())) + '\n';
        std::fwrite(reply.data(), 1, reply.size(), stdout);
    }
    std::fputs(desk.point_lines().c_str(), stdout);
}

const char *status_of(const std::string &reply) {
    static const std::pair<const char *, const char *> kStatuses[] = {
        {"parked", "202 Accepted"}, {"bad_", "400 Bad Request"}, {"no_panel", "404 Not Found"}, {"differs", "409 Conflict"},
        {"too_far", "409 Conflict"}, {"skipped", "410 Gone"}, {"forgotten", "410 Gone"}, {"refused", "422 Unprocessable Entity"}};
    for (const auto &[answer, status] : kStatuses) {
        if (reply.compare(11, std::strlen(answer), answer) == 0) {
            return status;
        }
    }
    return "200 OK";
}

std::string response_to(Desk &desk, const std::string &request) {
    size_t from = request.find('/'), body_at = request.find("\r\n\r\n") + 4;
    auto target = parts_of(request.substr(from + 1, request.find(' ', from) - from - 1), '/');
    std::string reply;
    if (target[0] == "reports" || target[0] == "points") {
        reply = target[0] == "points" ? desk.point(target[1]) : desk.report(target[1]);
    } else if (target[0] == "imports") {
        reply = desk.import(request.substr(body_at));
    } else {
        Members members = members_of(request.c_str() + body_at);
        members.panel = target[0] == "panels" ? target[1] : "";
        reply = desk.deliver(members);
    }
    const char *type = target[0] == "reports" ? "text/plain" : "application/json";
    return std::string("HTTP/1.1 ") + status_of(reply) + "\r\nContent-Type: " + type + "\r\nContent-Length: " +
        std::to_string(reply.size()) + "\r\nConnection: close\r\n\r\n" + reply;
}

// The same schedule and times as scripts/schedules_bench has.
void measure_value_now() {
    Schedule schedule{};
    for (int place = 0; place < 100; ++place) {
        Exception exception{16 - place % 16, -1, Entry(), DayList()};
        for (int each = 0; each < 100; ++each) {
            exception.times.values.push_back({std::min<int>(each * 86'000 + place * 700, kDay - 1), each % 7});
        }
        schedule.exceptions.push_back(exception);
    }
    auto by_priority = [](const auto &a, const auto &b) { return a.priority < b.priority; };
    std::stable_sort(schedule.exceptions.begin(), schedule.exceptions.end(), by_priority);
    Date day = date_of(number_of(2025, 6, 2));
    auto from = std::chrono::steady_clock::now();
    int known = 0;
    for (int place = 0; place < 2'000; ++place) {
        known += schedule.value({}, day, place * 4'000).has_value();
    }
    double micros = std::chrono::duration<double, std::micro>(std::chrono::steady_clock::now() - from).count();
    std::printf("value_now: 2000 calls in %.0f microseconds, %d with a value\n", micros, known);
}

}  // namespace

int main(int count, char **words) {
    std::string run = count > 1 ? words[1] : "";
    if (run == "value_now" && count == 2) {
        measure_value_now();
        return 0;
    }
    if (!(run == "replay" && count == 4) && !(run == "import" && count == 5) && !(run == "serve" && count == 6)) {
        std::fputs("plain_schedules replay BUILDING LIST | serve BUILDING DB PORT REQUESTS | import BUILDING DB CSV | value_now\n",
                   stderr);
        return 2;
    }
    if (run == "replay") {
        Desk desk(building_of(words[2]), nullptr);
        replay(desk, words[3]);
        return 0;
    }
    sqlite3 *db = nullptr;
    check(nullptr, sqlite3_open(words[3], &db));
    check(db, sqlite3_exec(db, kTables, nullptr, nullptr, nullptr));
    {
        Tables tables(db);
        Desk desk(building_of(words[2]), &tables);
        desk.read(db);
        if (run == "serve") {
            serve_each(std::atoi(words[4]), std::atoi(words[5]),
                       [&](const std::string &request) { return response_to(desk, request); });
        } else {
            std::ifstream csv(words[4]);
            std::puts(desk.import({std::istreambuf_iterator<char>(csv), {}}).c_str());
        }
    }
    check(db, sqlite3_close(db));
}
