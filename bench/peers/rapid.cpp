// RapidJSON: `pump` reads each message as a document and writes its text, `serve` answers `demo/echo` with its params, and
// `drops COUNT` drops them and answers with a list of COUNT places. One thread.
#include <rapidjson/document.h>
#include <rapidjson/stringbuffer.h>
#include <rapidjson/writer.h>

#include "frames.h"

using rapidjson::Document;
using rapidjson::StringBuffer;
using rapidjson::Value;

static bool write_text(std::string &frame, const Value &value) {
    StringBuffer text;
    rapidjson::Writer<StringBuffer> writer(text);
    value.Accept(writer);
    return write_frame(frame, text.GetString(), text.GetSize());
}

// The reply to a request: its params or a list of places, or for a method of the lifecycle what that asks for.
static bool answer(std::string &frame, Document &message, const std::string &method, const Value &places) {
    auto &pool = message.GetAllocator();
    Value result;
    if (method == "demo/echo" && places.Empty()) result.Swap(message["params"]);
    else if (method == "demo/echo") result.CopyFrom(places, pool);
    if (method == "initialize") result.SetObject().AddMember("capabilities", Value(rapidjson::kObjectType), pool);
    Value reply(rapidjson::kObjectType);
    reply.AddMember("jsonrpc", "2.0", pool).AddMember("id", message["id"], pool).AddMember("result", result, pool);
    return write_text(frame, reply);
}

int main(int count, char **words) {
    bool is_pump = count > 1 && !strcmp(words[1], "pump");
    Document places(rapidjson::kArrayType);
    for (int line = 0; count > 2 && line < atoi(words[2]); line++) {
        auto &pool = places.GetAllocator();
        Value place(rapidjson::kObjectType);
        places.PushBack(place.AddMember("character", 7, pool).AddMember("line", line, pool), pool);
    }
    std::string body, frame;
    while (read_frame(body)) {
        Document message;
        message.Parse(body.data(), body.size());
        if (message.HasParseError() || !message.IsObject()) return 1;
        std::string method = message.HasMember("method") ? message["method"].GetString() : "";
        if (is_pump && !write_text(frame, message)) return 1;
        if (!is_pump && message.HasMember("id") && !answer(frame, message, method, places)) return 1;
        if (method == "exit") return 0;
    }
    return 0;
}
