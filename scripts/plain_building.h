// The building of the plain program beside the desk: days, entries, schedules, points and panels, by docs/RULES.md.
#pragma once
#include <algorithm>
#include <cstdint>
#include <fstream>
#include <optional>
#include <sstream>
#include <string>
#include <unordered_map>
#include <unordered_set>
#include <utility>
#include <vector>


using Value = std::optional<long long>;
inline constexpr int64_t kDay = 8'640'000, kMostNumber = 1'000'000'000'000;
inline constexpr int kKept = 1'000, kWindow = 64, kPlaces = 16;
inline const char *const kWeekdays[] = {"mon", "tue", "wed", "thu", "fri", "sat", "sun"};

// ---- days and entries

// A civil day, by its number from 1970-01-01; weekday 1 is Monday.
struct Date {
    int64_t number;
    int year, month, day, weekday, last;
};

inline int last_day(int year, int month) {
    static const int kLast[] = {31, 28, 31, 30, 31, 30, 31, 31, 30, 31, 30, 31};
    return month == 2 && year % 4 == 0 && (year % 100 != 0 || year % 400 == 0) ? 29 : kLast[month - 1];
}

inline int64_t number_of(int year, int month, int day) {
    int64_t of_march = month > 2 ? year : year - 1, era = of_march / 400, in_era = of_march % 400;
    int64_t in_year = (153 * (month + (month > 2 ? -3 : 9)) + 2) / 5 + day - 1;
    return era * 146097 + in_era * 365 + in_era / 4 - in_era / 100 + in_year - 719468;
}

inline Date date_of(int64_t number) {
    int64_t shifted = number + 719468, era = shifted / 146097, in_era = shifted % 146097;
    int64_t of_era = (in_era - in_era / 1460 + in_era / 36524 - in_era / 146096) / 365;
    int64_t in_year = in_era - (365 * of_era + of_era / 4 - of_era / 100), month = (5 * in_year + 2) / 153;
    int64_t day = in_year - (153 * month + 2) / 5 + 1, of_year = month < 10 ? month + 3 : month - 9;
    Date date{number, static_cast<int>(of_era + era * 400 + (of_year <= 2)), static_cast<int>(of_year), static_cast<int>(day), 0, 0};
    date.weekday = static_cast<int>((number + 3) % 7 + 1);
    date.last = last_day(date.year, date.month);
    return date;
}

inline int64_t number_of(const std::string &text) {
    return number_of(std::stoi(text), std::stoi(text.substr(5)), std::stoi(text.substr(8)));
}

// A field of an entry, as BACnet codes it: 0 any, and the words behind the numbers.
inline int field_of(const std::string &text, int odd) {
    auto weekday = std::find(std::begin(kWeekdays), std::end(kWeekdays), text);
    return text == "*" ? 0 : text == "odd" ? odd : text == "even" ? odd + 1 : text == "last" ? 32
        : weekday != std::end(kWeekdays) ? static_cast<int>(weekday - kWeekdays) + 1 : std::stoi(text);
}

struct Entry {
    int year = 0, month = 0, day = 0, week = 0, weekday = 0;
    int64_t start = INT64_MIN, end = INT64_MAX;

    bool holds(const Date &date) const {
        bool fits = start <= date.number && date.number <= end;
        fits = fits && (year == 0 || year == date.year) && (weekday == 0 || weekday == date.weekday);
        fits = fits && (month == 0 || month == date.month || (month > 12 && month % 2 == date.month % 2));
        fits = fits && (day == 0 || day == date.day || (day == 32 && date.day == date.last) || (day > 32 && day % 2 == date.day % 2));
        return fits && (week == 0 || (week < 6 ? (date.day - 1) / 7 + 1 == week : (date.last - date.day) / 7 + 6 == week));
    }
};

inline std::vector<std::string> parts_of(const std::string &text, char between) {
    std::vector<std::string> parts;
    std::istringstream in(text);
    for (std::string part; std::getline(in, part, between);) {
        parts.push_back(part);
    }
    return parts;
}

inline Entry entry_of(const std::string &text) {
    Entry entry;
    size_t dots = text.find("..");
    if (dots != std::string::npos) {
        entry.start = text[0] == '*' ? INT64_MIN : number_of(text.substr(0, dots));
        entry.end = text[dots + 2] == '*' ? INT64_MAX : number_of(text.substr(dots + 2));
    } else if (text.compare(0, 4, "wnd:") == 0) {
        auto parts = parts_of(text, ':');
        entry.month = field_of(parts[1], 13), entry.week = field_of(parts[2], 0), entry.weekday = field_of(parts[3], 0);
    } else {
        size_t slash = text.find('/');
        auto parts = parts_of(text.substr(0, slash), '-');
        entry.year = field_of(parts[0], 0), entry.month = field_of(parts[1], 13), entry.day = field_of(parts[2], 33);
        entry.weekday = slash == std::string::npos ? 0 : field_of(text.substr(slash + 1), 0);
    }
    return entry;
}

// ---- the building

struct TimeValue {
    int time;
    Value value;
};

// Time values sorted by their times.
struct DayList {
    std::vector<TimeValue> values;

    Value at(int time) const {
        auto is_before = [](int at, const TimeValue &each) { return at < each.time; };
        auto after = std::upper_bound(values.begin(), values.end(), time, is_before);
        return after == values.begin() ? std::nullopt : std::prev(after)->value;
    }
};

struct Exception {
    int priority, calendar;  // no calendar: -1, and the entry counts
    Entry entry;
    DayList times;
};

struct Schedule {
    std::string name;
    Entry period;
    int priority;
    bool releases;
    Value by_default;
    std::vector<int> targets;
    DayList weekly[7];
    std::vector<Exception> exceptions;  // sorted by priority
    std::optional<Value> shown;

    bool is_in_effect(const Exception &exception, const std::vector<bool> &calendars, const Date &today) const {
        return exception.calendar < 0 ? exception.entry.holds(today) : calendars[exception.calendar];
    }

    Value value(const std::vector<bool> &calendars, const Date &today, int time) const {
        for (const auto &exception : exceptions) {
            if (is_in_effect(exception, calendars, today)) {
                if (Value value = exception.times.at(time)) {
                    return value;
                }
            }
        }
        Value value = weekly[today.weekday - 1].at(time);
        return value ? value : by_default;
    }
};

struct Point {
    std::string name;
    int64_t low, high, by_default;
    Value places[kPlaces + 1];

    std::pair<int64_t, int> present() const {
        for (int priority = 1; priority <= kPlaces; ++priority) {
            if (places[priority]) {
                return {*places[priority], priority};
            }
        }
        return {by_default, 0};
    }
};

struct Calendar {
    std::string name;
    std::vector<Entry> entries;
    std::unordered_set<std::string> texts;

    bool add(const std::string &text) {
        bool is_new = texts.insert(text).second;
        if (is_new) {
            entries.push_back(entry_of(text));
        }
        return is_new;
    }
};

enum State { Parked, Done, Refused };

// A command under its number: of what is done the value that was present and its priority, of what is refused its rule.
struct Row {
    std::string point;
    int64_t priority;
    Value value;
    State state = Parked;
    int64_t a = 0, b = 0;
};

struct Panel {
    std::string name;
    std::vector<bool> granted, priorities;
    int64_t next = 1;
    std::unordered_map<int64_t, Row> rows;
};

struct Building {
    std::vector<Point> points;
    std::vector<Panel> panels;
    std::vector<Calendar> calendars;
    std::vector<Schedule> schedules;
    std::unordered_map<std::string, int> point_at, panel_at, calendar_at, schedule_at;
};

inline int found(const std::unordered_map<std::string, int> &names, const std::string &name) {
    auto at = names.find(name);
    return at == names.end() ? -1 : at->second;
}

template <typename Table> Table &added(std::vector<Table> &tables, std::unordered_map<std::string, int> &names, std::istream &in) {
    tables.emplace_back();
    in >> tables.back().name;
    names[tables.back().name] = static_cast<int>(tables.size()) - 1;
    return tables.back();
}

// The time values on the rest of a line, each T=V with T in hundredths of a second.
inline DayList list_of(std::istream &in) {
    DayList list;
    for (std::string text; in >> text;) {
        std::string value = text.substr(text.find('=') + 1);
        list.values.push_back({std::stoi(text), value == "NULL" ? std::nullopt : Value(std::stoll(value))});
    }
    std::stable_sort(list.values.begin(), list.values.end(), [](const auto &a, const auto &b) { return a.time < b.time; });
    return list;
}

inline Building building_of(const char *path) {
    Building building;
    std::ifstream file(path);
    for (std::string line, word; std::getline(file, line);) {
        std::istringstream in(line);
        in >> word;
        if (word == "point") {
            Point &point = added(building.points, building.point_at, in);
            in >> point.low >> point.high >> point.by_default;
        } else if (word == "panel") {
            Panel &panel = added(building.panels, building.panel_at, in);
            in >> word;
            panel.priorities.resize(kPlaces + 1);
            panel.granted.resize(building.points.size());
            for (const auto &priority : parts_of(word, ',')) {
                panel.priorities[std::stoi(priority)] = true;
            }
            while (in >> word) {
                panel.granted[building.point_at.at(word)] = true;
            }
        } else if (word == "calendar") {
            Calendar &calendar = added(building.calendars, building.calendar_at, in);
            while (in >> word) {
                calendar.add(word);
            }
        } else if (word == "schedule") {
            Schedule &schedule = added(building.schedules, building.schedule_at, in);
            in >> word >> schedule.priority >> schedule.releases;
            schedule.period = entry_of(word);
            in >> word;
            schedule.by_default = word == "NULL" ? std::nullopt : Value(std::stoll(word));
            while (in >> word) {
                schedule.targets.push_back(building.point_at.at(word));
            }
        } else if (word == "weekday") {
            int weekday;
            in >> weekday;
            building.schedules.back().weekly[weekday - 1] = list_of(in);
        } else if (word == "exception") {
            Exception exception{};
            in >> exception.priority >> word;
            exception.calendar = found(building.calendar_at, word);
            exception.entry = exception.calendar < 0 ? entry_of(word) : Entry();
            exception.times = list_of(in);
            auto &all = building.schedules.back().exceptions;
            auto goes_first = [](const auto &a, const auto &b) { return a.priority < b.priority; };
            all.insert(std::upper_bound(all.begin(), all.end(), exception, goes_first), exception);
        }
    }
    return building;
}
