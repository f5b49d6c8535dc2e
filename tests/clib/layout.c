/* The layout of the structs, as crates/lsp_judge_c and crates/lsp_front_c have them, and a call that reads and writes each member. */
#include "lsp_front.h"
#include "lsp_judge.h"
#include <stdio.h>
#include <string.h>

#define AT(type, member, place, bytes) \
    _Static_assert(offsetof(struct type, member) == place && sizeof(((struct type *)0)->member) == bytes, #type "." #member)

_Static_assert(sizeof(struct lsp_judge_options) == 24, "lsp_judge_options");
AT(lsp_judge_options, size, 0, 8);
AT(lsp_judge_options, from_line, 8, 8);
AT(lsp_judge_options, format, 16, 1);
AT(lsp_judge_options, side, 17, 1);
AT(lsp_judge_options, level, 18, 1);
AT(lsp_judge_options, begins_late, 19, 1);
AT(lsp_judge_options, groups, 20, 4);
_Static_assert(sizeof(struct lsp_judge_verdict) == 32, "lsp_judge_verdict");
AT(lsp_judge_verdict, size, 0, 8);
AT(lsp_judge_verdict, unread, 8, 8);
AT(lsp_judge_verdict, needed, 16, 8);
AT(lsp_judge_verdict, written, 24, 8);
_Static_assert(sizeof(struct lsp_judge_session) == 16, "lsp_judge_session");
AT(lsp_judge_session, at, 0, 8);
AT(lsp_judge_session, is_open, 8, 1);
_Static_assert(sizeof(struct lsp_front_found) == 16, "lsp_front_found");
AT(lsp_front_found, kind, 0, 1);
AT(lsp_front_found, count, 8, 8);

static int failures;

static void expect(const char *what, unsigned long long came, unsigned long long wanted) {
    if (came != wanted) {
        printf("%s: %llu in place of %llu\n", what, came, wanted);
        failures++;
    }
}

static uint8_t report[1 << 14];
static struct lsp_judge_verdict verdict;

static uint8_t judge(const char *log, struct lsp_judge_options options) {
    options.size = sizeof options;
    memset(&verdict, 0, sizeof verdict);
    verdict.size = sizeof verdict;
    return lsp_judge_log(&options, (const uint8_t *)log, strlen(log), report, sizeof report, &verdict);
}

/* A client opens a document twice (line 4, must), and the server sends a reply that nobody asked for (line 5, must). */
static const char SESSION[] =
    "-> {\"jsonrpc\":\"2.0\",\"id\":1,\"method\":\"initialize\",\"params\":{}}\n"
    "<- {\"jsonrpc\":\"2.0\",\"id\":1,\"result\":{\"capabilities\":{}}}\n"
    "-> {\"jsonrpc\":\"2.0\",\"method\":\"initialized\",\"params\":{}}\n"
    "-> {\"jsonrpc\":\"2.0\",\"method\":\"initialized\",\"params\":{}}\n";
static const char REPLY[] = "<- {\"jsonrpc\":\"2.0\",\"id\":7,\"result\":null}\n";
/* A batch is a breach of the level implied. */
static const char BATCH[] = "<- []\n";

static void judgements(void) {
    struct lsp_judge_options it = {0};
    char log[4096];
    expect("the server, must", judge(SESSION, it), LSP_JUDGE_CLEAN);
    it.side = LSP_JUDGE_CLIENT;
    expect("the client, must", judge(SESSION, it), LSP_JUDGE_BROKEN);
    expect("written", verdict.written, verdict.needed);
    expect("the breach is in the report", strstr((char *)report, "\"rule\":\"SentAgain\"") != NULL, 1);
    it.from_line = 5;
    expect("from a line", judge(SESSION, it), LSP_JUDGE_BROKEN);
    report[verdict.written] = 0;
    expect("the breach before that line", strstr((char *)report, "\"rule\":\"SentAgain\"") != NULL, 0);
    it.from_line = 0;
    snprintf(log, sizeof log, "%s%s", SESSION, REPLY);
    it.side = LSP_JUDGE_SERVER;
    expect("a reply that nobody asked for", judge(log, it), LSP_JUDGE_BROKEN);
    it.begins_late = 1;
    expect("the same where the start may be missing", judge(log, it), LSP_JUDGE_BROKEN);
    expect("the same without the start", judge(REPLY, it), LSP_JUDGE_CLEAN);
    it.begins_late = 0;
    snprintf(log, sizeof log, "%s%s", SESSION, BATCH);
    expect("a batch, must", judge(log, it), LSP_JUDGE_CLEAN);
    it.level = LSP_JUDGE_IMPLIED;
    expect("a batch, implied", judge(log, it), LSP_JUDGE_BROKEN);
    it.level = LSP_JUDGE_MUST;
    snprintf(log, sizeof log, "%shello\n%s", SESSION, SESSION);
    expect("a line without a direction", judge(log, it), LSP_JUDGE_UNREAD);
    expect("which line", verdict.unread, 5);
    expect("nothing", judge("", it), LSP_JUDGE_NOTHING);
    expect("no message", judge("hello", it), LSP_JUDGE_NOTHING);
    expect("no JSON", judge("-> hello", it), LSP_JUDGE_UNREAD);
    it.format = LSP_JUDGE_ANY_LOG;
    expect("another log", judge("hello\n", it), LSP_JUDGE_NOTHING);
    expect("a recording as another log", judge(SESSION, it), LSP_JUDGE_CLEAN);
    expect("frames of one direction", judge("Content-Length: 2\r\n\r\n{}", it), LSP_JUDGE_FAILED);
    expect("its verdict", verdict.needed + verdict.written + verdict.unread, 0);
}

/* What a server announces is judged if the options say so: here it replies to a hover that it did not announce. */
static void capabilities(void) {
    static const char hover[] = "-> {\"jsonrpc\":\"2.0\",\"id\":2,\"method\":\"textDocument/hover\",\"params\":{}}\n"
                                "<- {\"jsonrpc\":\"2.0\",\"id\":2,\"result\":null}\n";
    struct lsp_judge_options it = {.format = LSP_JUDGE_ANY_LOG, .level = LSP_JUDGE_IMPLIED};
    char log[4096];
    snprintf(log, sizeof log, "%s%s", SESSION, hover);
    expect("the rules of a session", judge(log, it), LSP_JUDGE_CLEAN);
    it.groups = LSP_JUDGE_CAPABILITIES;
    expect("those of capabilities", judge(log, it), LSP_JUDGE_BROKEN);
    report[verdict.written] = 0;
    expect("their breach", strstr((char *)report, "\"rule\":\"NotAnnounced\"") != NULL, 1);
}

/* A report that does not fit: its first lines, and the room that is needed. A byte after the room stays as it is. */
static void room(void) {
    struct lsp_judge_options it = {.size = sizeof it, .side = LSP_JUDGE_CLIENT};
    expect("the whole report", judge(SESSION, it), LSP_JUDGE_BROKEN);
    size_t all = verdict.needed, line = (size_t)(strchr((char *)report, '\n') - (char *)report) + 1;
    for (size_t size = 0; size <= all; size++) {
        struct lsp_judge_verdict v = {.size = sizeof v};
        report[size] = 0x7f;
        int status = lsp_judge_log(&it, (const uint8_t *)SESSION, strlen(SESSION), report, size, &v);
        expect("the status in less room", status, LSP_JUDGE_BROKEN);
        expect("needed", v.needed, all);
        expect("written", v.written, size == all ? all : size >= line ? line : 0);
        expect("the byte after the room", report[size], 0x7f);
    }
}

static void refused(void) {
    struct lsp_judge_options good = {0}, it = good;
    it.format = 2;
    expect("a format", judge(SESSION, it), LSP_JUDGE_REFUSED);
    it = good, it.side = 3;
    expect("a side", judge(SESSION, it), LSP_JUDGE_REFUSED);
    it = good, it.level = 3;
    expect("a level", judge(SESSION, it), LSP_JUDGE_REFUSED);
    it = good, it.begins_late = 2;
    expect("begins_late", judge(SESSION, it), LSP_JUDGE_REFUSED);
    it = good, it.groups = LSP_JUDGE_CAPABILITIES;
    expect("groups of a recording", judge(SESSION, it), LSP_JUDGE_REFUSED);
    it = good, it.format = LSP_JUDGE_ANY_LOG, it.groups = 2;
    expect("a group", judge(SESSION, it), LSP_JUDGE_REFUSED);
    it = good, it.format = LSP_JUDGE_ANY_LOG, it.from_line = 2;
    expect("from_line of another log", judge(SESSION, it), LSP_JUDGE_REFUSED);
    expect("size", lsp_judge_log(&good, (const uint8_t *)"", 0, report, 0, &verdict), LSP_JUDGE_REFUSED);
    good.size = sizeof good;
    verdict.size = 24;
    expect("the verdict's size", lsp_judge_log(&good, (const uint8_t *)"", 0, report, 0, &verdict), LSP_JUDGE_REFUSED);
    expect("the verdict", verdict.size, 24);
}

static struct lsp_judge_session session = LSP_JUDGE_CLOSED;

static uint8_t pass(uint8_t direction, uint64_t place, const char *content) {
    return lsp_judge_message(&session, direction, place, (const uint8_t *)content, strlen(content), report, sizeof report, &verdict);
}

static uint8_t end(uint8_t ended) {
    return lsp_judge_end(&session, ended, report, sizeof report, &verdict);
}

static const char INITIALIZE[] = "{\"jsonrpc\":\"2.0\",\"id\":1,\"method\":\"initialize\",\"params\":{}}";
static const char INITIALIZE_REPLY[] = "{\"jsonrpc\":\"2.0\",\"id\":1,\"result\":{\"capabilities\":{}}}";
static const char SHUTDOWN[] = "{\"jsonrpc\":\"2.0\",\"id\":2,\"method\":\"shutdown\"}";
static const char SHUTDOWN_REPLY[] = "{\"jsonrpc\":\"2.0\",\"id\":2,\"result\":null}";
static const char ASKS_CLIENT[] = "{\"jsonrpc\":\"2.0\",\"id\":2,\"method\":\"window/showMessageRequest\",\"params\":{}}";
static const char TELLS[] = "{\"jsonrpc\":\"2.0\",\"method\":\"a\"}";
static const char OF_VERSION_1[] = "{\"jsonrpc\":\"1.0\",\"method\":\"a\"}";

/* The messages of SESSION, one at a time, and what is said of the requests that are open in the end. */
static void messages(void) {
    struct lsp_judge_options it = {.size = sizeof it, .side = LSP_JUDGE_BOTH};
    verdict.size = sizeof verdict;
    expect("opened", lsp_judge_new(&it, &session), 0);
    expect("nothing passed", end(LSP_JUDGE_BOTH_ENDED), LSP_JUDGE_NOTHING);
    expect("closed", session.is_open, 0);
    expect("opened again", lsp_judge_new(&it, &session), 0);
    expect("initialize", pass(LSP_JUDGE_TO_SERVER, 1, INITIALIZE), LSP_JUDGE_CLEAN);
    expect("no report", verdict.needed, 0);
    expect("its reply", pass(LSP_JUDGE_TO_CLIENT, 2, INITIALIZE_REPLY), LSP_JUDGE_CLEAN);
    pass(LSP_JUDGE_TO_SERVER, 3, "{\"jsonrpc\":\"2.0\",\"method\":\"initialized\",\"params\":{}}");
    expect("a request", pass(LSP_JUDGE_TO_SERVER, 4, SHUTDOWN), LSP_JUDGE_CLEAN);
    struct lsp_judge_session other = LSP_JUDGE_CLOSED;
    lsp_judge_new(&it, &other);
    expect("no message of another session", lsp_judge_end(&other, 0, report, sizeof report, &verdict), LSP_JUDGE_NOTHING);
    expect("the server has ended", end(LSP_JUDGE_SERVER_ENDED), LSP_JUDGE_BROKEN);
    report[verdict.written] = 0;
    expect("the request without a reply", strstr((char *)report, "\"rule\":\"NoReply\"") != NULL, 1);
    expect("its place", strstr((char *)report, "\"line\":4") != NULL, 1);
    for (uint8_t ended = 0; ended < 4; ended++) {
        lsp_judge_new(&it, &session);
        pass(LSP_JUDGE_TO_SERVER, 1, INITIALIZE);
        pass(LSP_JUDGE_TO_CLIENT, 2, INITIALIZE_REPLY);
        pass(LSP_JUDGE_TO_SERVER, 3, "{\"jsonrpc\":\"2.0\",\"method\":\"initialized\",\"params\":{}}");
        pass(LSP_JUDGE_TO_CLIENT, 7, ASKS_CLIENT);
        /* Of a client it is not certain: it may end before its user has answered. */
        expect("a request to the client", end(ended), LSP_JUDGE_CLEAN);
        report[verdict.written] = 0;
        expect("it is told", strstr((char *)report, "\"kind\":\"cannot_tell\"") != NULL, (ended & LSP_JUDGE_CLIENT_ENDED) != 0);
    }
}

/* A breach shows at once, and stays. */
static void breaches_at_once(void) {
    struct lsp_judge_options it = {.size = sizeof it, .side = LSP_JUDGE_SERVER, .begins_late = 1};
    lsp_judge_new(&it, &session);
    expect("the start is missing", pass(LSP_JUDGE_TO_SERVER, 1, SHUTDOWN), LSP_JUDGE_CLEAN);
    expect("a reply", pass(LSP_JUDGE_TO_CLIENT, 2, SHUTDOWN_REPLY), LSP_JUDGE_CLEAN);
    expect("no JSON of the client", pass(LSP_JUDGE_TO_SERVER, 3, "hello"), LSP_JUDGE_UNREAD);
    expect("which message", verdict.unread, 3);
    expect("another one", pass(LSP_JUDGE_TO_SERVER, 4, "\xff"), LSP_JUDGE_UNREAD);
    expect("the first one", verdict.unread, 3);
    expect("a batch, must", pass(LSP_JUDGE_TO_CLIENT, 5, "[]"), LSP_JUDGE_UNREAD);
    expect("a reply again", pass(LSP_JUDGE_TO_CLIENT, 6, SHUTDOWN_REPLY), LSP_JUDGE_UNREAD);
    expect("a wrong version", pass(LSP_JUDGE_TO_CLIENT, 7, OF_VERSION_1), LSP_JUDGE_BROKEN);
    expect("a good message behind it", pass(LSP_JUDGE_TO_CLIENT, 8, TELLS), LSP_JUDGE_BROKEN);
    expect("the end", end(LSP_JUDGE_NO_SIDE_ENDED), LSP_JUDGE_BROKEN);
    expect("its first message that was not read", verdict.unread, 3);
}

static void refused_sessions(void) {
    struct lsp_judge_options good = {.size = sizeof good}, it = good;
    expect("a closed session", pass(0, 1, TELLS), LSP_JUDGE_REFUSED);
    expect("its end", end(0), LSP_JUDGE_REFUSED);
    lsp_judge_free(&session);
    it.from_line = 2;
    expect("from_line of a session", lsp_judge_new(&it, &session), LSP_JUDGE_REFUSED);
    it = good, it.groups = 2;
    expect("a group of a session", lsp_judge_new(&it, &session), LSP_JUDGE_REFUSED);
    it = good, it.format = 2;
    expect("a format of a session", lsp_judge_new(&it, &session), LSP_JUDGE_REFUSED);
    it = good, it.size = 0;
    expect("options of another size", lsp_judge_new(&it, &session), LSP_JUDGE_REFUSED);
    expect("still closed", session.is_open, 0);
    good.groups = LSP_JUDGE_CAPABILITIES, good.from_line = 1;
    expect("groups of a session", lsp_judge_new(&good, &session), 0);
    expect("a direction", pass(2, 1, TELLS), LSP_JUDGE_REFUSED);
    expect("the place 0", pass(0, 0, TELLS), LSP_JUDGE_REFUSED);
    expect("a side", end(4), LSP_JUDGE_REFUSED);
    verdict.size = 24;
    expect("the verdict's size", pass(0, 1, TELLS), LSP_JUDGE_REFUSED);
    expect("the verdict's size in the end", end(0), LSP_JUDGE_REFUSED);
    expect("the verdict", verdict.size, 24);
    verdict.size = sizeof verdict;
    expect("still open", session.is_open, 1);
    expect("no message was counted", end(0), LSP_JUDGE_NOTHING);
}

static void rules(void) {
    memset(&verdict, 0, sizeof verdict);
    verdict.size = sizeof verdict;
    expect("the rules", lsp_judge_rules(report, sizeof report, &verdict), 0);
    expect("their report", verdict.written, verdict.needed);
    verdict.size = 0;
    expect("a wrong size", lsp_judge_rules(report, sizeof report, &verdict), LSP_JUDGE_REFUSED);
    expect("the version", lsp_judge_version(), LSP_JUDGE_VERSION);
}

static void front(void) {
    struct { const char *bytes; uint8_t kind; size_t count; } all[] = {
        {"", LSP_FRONT_MORE, 0},
        {"Content-Length: 2\r\n\r\n{}{}", LSP_FRONT_WHOLE, 23},
        {"Content-Length: 2\r\n\r\n{", LSP_FRONT_MORE, 0},
        {"Content-Length: 2\n\n{}", LSP_FRONT_FAULT, 3},
        {"Content-Length:2\r\n\r\n{}", LSP_FRONT_FAULT, 4},
        {"Content-Length: x\r\n\r\n{}", LSP_FRONT_FAULT, 5},
        {"Content-Type: x\r\n\r\n{}", LSP_FRONT_FAULT, 6},
        {"\xff: x\r\n\r\n{}", LSP_FRONT_FAULT, 2},
    };
    for (size_t at = 0; at < sizeof all / sizeof *all; at++) {
        struct lsp_front_found it = lsp_front((const uint8_t *)all[at].bytes, strlen(all[at].bytes));
        expect(all[at].bytes, it.kind, all[at].kind);
        expect(all[at].bytes, it.count, all[at].count);
    }
}

static void kinds(void) {
    struct { const char *content; uint8_t kind; } all[] = {
        {"{\"jsonrpc\":\"2.0\",\"id\":1,\"method\":\"a\"}", LSP_MESSAGE_REQUEST},
        {"{\"jsonrpc\":\"2.0\",\"method\":\"a\"}", LSP_MESSAGE_NOTIFICATION},
        {"{\"jsonrpc\":\"2.0\",\"id\":1,\"result\":null}", LSP_MESSAGE_RESPONSE},
        {"\xff", LSP_MESSAGE_NOT_UTF8},
        {"{", LSP_MESSAGE_NO_JSON},
        {"{}", LSP_MESSAGE_NONE},
        {"[]", LSP_MESSAGE_BATCH},
    };
    for (size_t at = 0; at < sizeof all / sizeof *all; at++)
        expect(all[at].content, lsp_message_kind((const uint8_t *)all[at].content, strlen(all[at].content)), all[at].kind);
}

int main(void) {
    judgements();
    capabilities();
    room();
    refused();
    messages();
    breaches_at_once();
    refused_sessions();
    rules();
    front();
    kinds();
    printf("layout: %d differences\n", failures);
    return failures > 0;
}
