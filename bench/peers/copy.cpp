// Frames without JSON: `pump` writes each again, `serve` those that the bench made as requests. One thread.
// It is what the bytes and the system calls cost alone.
#include "frames.h"

static const char REQUEST[] = "{\"jsonrpc\":\"2.0\",\"id\":";
static const char EXIT[] = "{\"jsonrpc\":\"2.0\",\"method\":\"exit\"}";

int main(int count, char **words) {
    bool is_pump = count > 1 && !strcmp(words[1], "pump");
    std::string body, frame;
    while (read_frame(body)) {
        bool is_request = !body.compare(0, sizeof REQUEST - 1, REQUEST);
        if ((is_pump || is_request) && !write_frame(frame, body.data(), body.size())) return 1;
        if (body == EXIT) return 0;
    }
    return 0;
}
