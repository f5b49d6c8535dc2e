// What the peers in C++ share: frames through standard input and output.
#pragma once
#include <unistd.h>

#include <cstdio>
#include <cstdlib>
#include <cstring>
#include <string>

constexpr size_t READ_AHEAD = 65536;

// The next content part of standard input; false at its end.
inline bool read_frame(std::string &body) {
    static const char NAME[] = "Content-Length: ";
    static const bool is_unbuffered = setvbuf(stdin, nullptr, _IOFBF, READ_AHEAD);
    char line[256];
    size_t length = 0;
    do {
        if (is_unbuffered || !fgets_unlocked(line, sizeof line, stdin)) return false;
        if (!strncmp(line, NAME, sizeof NAME - 1)) length = strtoull(line + sizeof NAME - 1, nullptr, 10);
    } while (strcmp(line, "\r\n"));
    body.resize(length);
    return fread_unlocked(body.data(), 1, length, stdin) == length;
}

// Writes a frame to descriptor 1, by one call where the system takes it whole.
inline bool write_frame(std::string &frame, const char *body, size_t length) {
    frame = "Content-Length: " + std::to_string(length) + "\r\n\r\n";
    frame.append(body, length);
    size_t sent = 0;
    while (sent < frame.size()) {
        ssize_t count = write(1, frame.data() + sent, frame.size() - sent);
        if (count <= 0) return false;
        sent += count;
    }
    return true;
}
