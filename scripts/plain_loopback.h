// Requests over the loopback, one connection after another, for the plain programs beside the desk.
#pragma once
#include <arpa/inet.h>
#include <cstdint>
#include <cstdio>
#include <cstdlib>
#include <netinet/in.h>
#include <string>
#include <sys/socket.h>
#include <unistd.h>

[[noreturn]] inline void give_up(const char *why) {
    std::perror(why);
    std::exit(1);
}

// One request: the head to its empty line, and as much of a body as its length says.
inline std::string request_of(int client) {
    std::string request;
    for (char part[65'536];;) {
        size_t head = request.find("\r\n\r\n"), length = request.find("Content-Length: ");
        size_t body = length < head ? std::strtoul(&request[length + 16], nullptr, 10) : 0;
        if (head != std::string::npos && request.size() >= head + 4 + body) {
            return request;
        }
        ssize_t more = recv(client, part, sizeof part, 0);
        if (more <= 0) {
            give_up("recv");
        }
        request.append(part, more);
    }
}

inline int listening_on(int port) {
    int listener = socket(AF_INET, SOCK_STREAM, 0), on = 1;
    setsockopt(listener, SOL_SOCKET, SO_REUSEADDR, &on, sizeof on);
    sockaddr_in address{};
    address.sin_family = AF_INET;
    address.sin_port = htons(static_cast<uint16_t>(port));
    address.sin_addr.s_addr = htonl(INADDR_LOOPBACK);
    if (bind(listener, reinterpret_cast<const sockaddr *>(&address), sizeof address) != 0 || listen(listener, 128) != 0) {
        give_up("listen");
    }
    std::puts("listening");
    std::fflush(stdout);
    return listener;
}

// Answers so many requests on a port, each by what `response_to` makes of it.
template <class ResponseTo> void serve_each(int port, int requests, ResponseTo response_to) {
    int listener = listening_on(port);
    for (int taken = 0; taken < requests; ++taken) {
        int client = accept(listener, nullptr, nullptr);
        if (client < 0) {
            give_up("accept");
        }
        std::string response = response_to(request_of(client));
        if (send(client, response.data(), response.size(), 0) != static_cast<ssize_t>(response.size())) {
            give_up("send");
        }
        close(client);
    }
}
