// Asks a server over the loopback, and tells how fast it answered.
//
// http_load PORT KIND COUNT PANELS POINTS [CLIENTS]: so many clients, or one, each ask one connection after another, and each
// panel's commands are those of one client. KIND is `commands` (in each panel's number order), `points` (how a point is) or
// `mixed` (two commands, one of them again, a point). It prints the requests a second, and the median and the 99th
// hundredth of the times that a request took, in microseconds.
#include <algorithm>
#include <arpa/inet.h>
#include <chrono>
#include <cstdio>
#include <cstdlib>
#include <cstring>
#include <netinet/in.h>
#include <netinet/tcp.h>
#include <string>
#include <sys/socket.h>
#include <thread>
#include <unistd.h>
#include <vector>

namespace {

using Clock = std::chrono::steady_clock;

void give_up(const char *why) {
    std::perror(why);
    std::exit(1);
}

std::string point_request(int point) { return "GET /points/ROOM-" + std::to_string(point + 1) + " HTTP/1.1\r\nHost: desk\r\n\r\n"; }

// The command of this place in the list of all panels' commands.
std::string command_request(int index, int panels, int points) {
    int panel = index % panels, number = index / panels + 1, point = (panel * points / panels + number) % points;
    std::string body = "{\"number\":" + std::to_string(number) + ",\"point\":\"ROOM-" + std::to_string(point + 1) +
                       "\",\"priority\":8,\"value\":" + std::to_string(500 + index * 7 % 3001) + "}";
    return "POST /panels/PANEL-" + std::to_string(panel + 1) + "/commands HTTP/1.1\r\nHost: desk\r\nContent-Length: " +
           std::to_string(body.size()) + "\r\n\r\n" + body;
}

std::string request_of(const std::string &kind, int index, int panels, int points) {
    if (kind == "commands") {
        return command_request(index, panels, points);
    }
    if (kind == "points" || index % 4 == 3) {
        return point_request(index % points);
    }
    // two new commands of each four requests, and the second of them again
    int command = index / 4 * 2 + std::min(index % 4, 1);
    return command_request(command, panels, points);
}

void ask(const sockaddr_in &address, const std::string &request) {
    int client = socket(AF_INET, SOCK_STREAM, 0);
    if (client < 0 || connect(client, reinterpret_cast<const sockaddr *>(&address), sizeof address) != 0) {
        give_up("connect");
    }
    if (send(client, request.data(), request.size(), 0) != static_cast<ssize_t>(request.size())) {
        give_up("send");
    }
    char answer[4096];
    ssize_t held = 0;
    for (ssize_t more; (more = recv(client, answer + held, sizeof answer - held, 0)) > 0;) {
        held += more;
    }
    if (held < 12 || std::memcmp(answer, "HTTP/1.1 200", 12) != 0) {
        std::fprintf(stderr, "answered %.*s\n", static_cast<int>(std::max<ssize_t>(held, 0)), answer);
        std::exit(1);
    }
    close(client);
}

// What a run asks: the server, and which requests.
struct Load {
    sockaddr_in address;
    std::string kind;
    int requests, panels, points, clients;

    // The client of a request: that of its panel.
    int client_of(int index) const { return (kind == "commands" ? index % panels : index) % clients; }
};

// Makes the requests of a client in order, and tells how long each took, in microseconds.
void ask_all(const Load &load, int client, std::vector<double> &times) {
    for (int index = 0; index < load.requests; ++index) {
        if (load.client_of(index) == client) {
            auto from = Clock::now();
            ask(load.address, request_of(load.kind, index, load.panels, load.points));
            times.push_back(std::chrono::duration<double, std::micro>(Clock::now() - from).count());
        }
    }
}

}  // namespace

int main(int count, char **words) {
    if (count != 6 && count != 7) {
        std::fputs("http_load PORT KIND COUNT PANELS POINTS [CLIENTS]\n", stderr);
        return 2;
    }
    Load load{};
    load.address.sin_family = AF_INET;
    load.address.sin_port = htons(static_cast<uint16_t>(std::atoi(words[1])));
    load.address.sin_addr.s_addr = htonl(INADDR_LOOPBACK);
    load.kind = words[2];
    load.requests = std::atoi(words[3]);
    load.panels = std::atoi(words[4]);
    load.points = std::atoi(words[5]);
    load.clients = count == 7 ? std::atoi(words[6]) : 1;
    std::vector<std::vector<double>> taken(load.clients);
    std::vector<std::thread> clients;
    auto begun = Clock::now();
    for (int client = 0; client < load.clients; ++client) {
        clients.emplace_back([&, client] { ask_all(load, client, taken[client]); });
    }
    for (auto &client : clients) {
        client.join();
    }
    double seconds = std::chrono::duration<double>(Clock::now() - begun).count();
    std::vector<double> times;
    for (const auto &each : taken) {
        times.insert(times.end(), each.begin(), each.end());
    }
    std::sort(times.begin(), times.end());
    std::printf("%.0f %.0f %.0f\n", load.requests / seconds, times[times.size() / 2], times[times.size() * 99 / 100]);
}
