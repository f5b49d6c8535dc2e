/* fuzz RUNS FILE..: byte strings through the C functions: random bytes, pieces of JSON, and the files with bytes changed and cut. Each is judged
 * twice: with little room, and with the room that is needed. The lines of a recording that have a mark are also judged one at a time: the
 * status and the report are those of the recording. */
#include "lsp_front.h"
#include "lsp_judge.h"
#include <stdio.h>
#include <stdlib.h>
#include <string.h>

#define MOST (1 << 17)

static uint64_t state = 88172645463325252ull;

static uint64_t next(void) {
    state ^= state << 13;
    state ^= state >> 7;
    state ^= state << 17;
    return state;
}

static const char *const PIECES[] = {
    "-> ", "<- ", "{", "}", "[", "]", "\"jsonrpc\":\"2.0\"", ",", ":", "\"id\":1", "\"id\":\"a\"", "\"method\":\"initialize\"",
    "\"method\":\"$/progress\"", "\"params\":{\"token\":1,\"value\":{\"kind\":\"end\"}}", "\"result\":null", "\"error\":{\"code\":-1,\"message\":\"\"}",
    "\n", "\r\n", "1e999", "-0", "\\ud800", "\"\\u0000\"", "null", "18446744073709551616", "\xff", "\xf0\x9f\x92\xa9",
    "-> {\"jsonrpc\":\"2.0\",\"id\":1,\"method\":\"initialize\",\"params\":{}}\n", "<- {\"jsonrpc\":\"2.0\",\"id\":1,\"result\":{}}\n",
    "-> {\"jsonrpc\":\"2.0\",\"method\":\"textDocument/didOpen\",\"params\":{\"textDocument\":{\"uri\":\"a\",\"version\":1}}}\n",
    "Content-Length: 2\r\n\r\n", "{\"isLSPMessage\":true,\"type\":\"send-request\",\"message\":", "[Trace - 10:00:00] Sending request 'a - (1)'.\nParams: {}\n\n",
};

static unsigned char *seeds[256];
static size_t lengths[256], count;

static void read_seed(const char *name) {
    FILE *file = fopen(name, "rb");
    if (!file)
        return;
    seeds[count] = malloc(MOST / 2);
    lengths[count] = fread(seeds[count], 1, MOST / 2, file);
    count += lengths[count] > 0;
    fclose(file);
}

static size_t random_bytes(unsigned char *bytes) {
    size_t n = next() % 300;
    for (size_t at = 0; at < n; at++)
        bytes[at] = (unsigned char)next();
    if (n > 3 && next() % 2)
        memcpy(bytes, "-> ", 3);
    return n;
}

static size_t random_pieces(unsigned char *bytes) {
    size_t n = 0;
    for (int left = next() % 60; left > 0; left--) {
        const char *piece = PIECES[next() % (sizeof PIECES / sizeof *PIECES)];
        memcpy(bytes + n, piece, strlen(piece));
        n += strlen(piece);
    }
    return n;
}

static size_t changed_seed(unsigned char *bytes) {
    size_t which = next() % count, n = lengths[which];
    memcpy(bytes, seeds[which], n);
    for (int left = next() % 12; left > 0 && n > 0; left--) {
        size_t at = next() % n;
        if (next() % 3 == 0) {
            bytes[at] = (unsigned char)next();
        } else if (next() % 2) {
            bytes[at] = "{}[],:\"\n-<>0"[next() % 12];
        } else {
            memmove(bytes + at, bytes + at + (n - at) / 2, n - at - (n - at) / 2);
            n -= (n - at) / 2;
        }
    }
    return n;
}

static int fail(const char *why, int status) {
    printf("fuzz: %s, status %d\n", why, status);
    return 0;
}

/* Judges bytes of just this length, so that valgrind sees one byte too far. */
static int holds(const unsigned char *log, size_t n, unsigned long counts[]) {
    int is_recording = next() % 2, begins = next() % 4 ? 0 : next() % 20;
    struct lsp_judge_options options = {.size = sizeof options, .side = next() % 3, .level = next() % 3, .begins_late = next() % 2};
    options.format = is_recording ? LSP_JUDGE_RECORDING : LSP_JUDGE_ANY_LOG;
    options.from_line = is_recording ? begins : 0;
    options.groups = is_recording ? 0 : next() % 2;
    struct lsp_judge_verdict v = {sizeof v, 99, 99, 99}, w;
    size_t room = next() % 700;
    unsigned char *report = malloc(room ? room : 1);
    int status = lsp_judge_log(&options, log, n, report, room, &v);
    if (status > 4 || (status == 4 && is_recording))
        return fail("a status that cannot be", status);
    if (is_recording && (status == 0 || status == 3) && (status == 0) != (v.unread == 0))
        return fail("a line that was not read", status);
    if (status == 4 && (v.unread != 99 || v.needed != 99 || v.written != 99))
        return fail("a verdict that is not said", status);
    if (status == 4)
        v.needed = v.written = v.unread = 0;
    if (v.written > room || v.written > v.needed || (v.written && report[v.written - 1] != '\n') || (v.needed <= room && v.written != v.needed))
        return fail("what was written", status);
    unsigned char *again = malloc(v.needed ? v.needed : 1);
    w.size = sizeof w, w.unread = w.needed = w.written = 0;
    if (lsp_judge_log(&options, log, n, again, v.needed, &w) != status || w.needed != v.needed || w.written != v.needed || w.unread != v.unread
        || memcmp(again, report, v.written))
        return fail("another answer", status);
    struct lsp_front_found front = lsp_front(log, n);
    if (front.kind > 2 || (front.kind == 0 && front.count > n) || (front.kind == 2 && (front.count < 2 || front.count > 6)))
        return fail("the front", front.kind);
    int kind = lsp_message_kind(log, n);
    if (!(kind <= 2 || (kind >= 8 && kind <= 10) || kind == 13))
        return fail("the kind", kind);
    counts[status]++;
    free(report);
    free(again);
    return 1;
}

/* ---- one message at a time */

/* The lines that begin with `-> ` or `<- `, each with its end. */
static size_t marked_lines(const unsigned char *log, size_t n, unsigned char *out) {
    size_t count = 0;
    for (size_t at = 0, end; at < n; at = end) {
        for (end = at; end < n && log[end] != '\n'; end++)
            ;
        if (end - at >= 3 && (!memcmp(log + at, "-> ", 3) || !memcmp(log + at, "<- ", 3))) {
            memcpy(out + count, log + at, end - at);
            out[count + end - at] = '\n';
            count += end - at + 1;
        }
        end += end < n;
    }
    return count;
}

/* Passes the lines to a session. The status in the end, or 9 if a call was wrong. A room of 0 is one of a random size for each report. */
static int one_by_one(const struct lsp_judge_options *options, const unsigned char *log, size_t n, unsigned char *report, size_t room,
                      struct lsp_judge_verdict *all) {
    struct lsp_judge_session session = LSP_JUDGE_CLOSED;
    struct lsp_judge_verdict v = {.size = sizeof v};
    size_t used = 0, at = 0, place = 1;
    int before = 0, status = lsp_judge_new(options, &session);
    memset(all, 0, sizeof *all);
    for (int is_over = 0; !status && !is_over; place++) {
        const unsigned char *line_end = at < n ? memchr(log + at, '\n', n - at) : NULL;
        size_t some = room ? room - used : next() % 400, length = line_end ? (size_t)(line_end - log) - at - 3 : 0;
        unsigned char *content = malloc(length + 1), *out = malloc(some + 1);
        if (line_end)
            memcpy(content, log + at + 3, length);
        is_over = !line_end;
        int now = is_over ? lsp_judge_end(&session, LSP_JUDGE_NO_SIDE_ENDED, out, some, &v)
                          : lsp_judge_message(&session, log[at] == '<', place, content, length, out, some, &v);
        if (now > 3 || v.written > some || (v.needed <= some && v.written != v.needed) || (before == 1 && now != 1) || (before == 3 && !now))
            status = 9;
        if (room)
            memcpy(report + used, out, v.written);
        used += v.written;
        all->needed += v.needed, all->written += v.written, all->unread = v.unread;
        before = now;
        at += length + 4;
        free(content);
        free(out);
    }
    lsp_judge_free(&session);
    return status ? 9 : before;
}

/* A recording is judged alike in one piece and one message at a time. A group of rules beside those of a session has the other format. */
static int holds_one_by_one(const unsigned char *log, size_t n) {
    static unsigned char lines[2 * MOST];
    size_t count = marked_lines(log, n, lines);
    struct lsp_judge_options options = {.size = sizeof options, .side = next() % 3, .level = next() % 3, .begins_late = next() % 2};
    struct lsp_judge_verdict v = {.size = sizeof v}, w;
    unsigned char none;
    int status = lsp_judge_log(&options, lines, count, &none, 0, &v);
    if (status < 2 && !v.unread && next() % 2) {
        options.groups = LSP_JUDGE_CAPABILITIES, options.format = LSP_JUDGE_ANY_LOG;
        status = lsp_judge_log(&options, lines, count, &none, 0, &v);
    }
    unsigned char *report = malloc(v.needed + 1), *again = malloc(v.needed + 1);
    size_t all = v.needed;
    lsp_judge_log(&options, lines, count, report, all, &v);
    int came = one_by_one(&options, lines, count, again, all, &w);
    if (came != status || w.needed != all || w.written != all || w.unread != v.unread || memcmp(report, again, all))
        return fail("another answer one message at a time", came);
    if (one_by_one(&options, lines, count, again, 0, &w) != status || w.needed != all)
        return fail("another answer in little room", status);
    free(report);
    free(again);
    return 1;
}

int main(int argc, char **argv) {
    unsigned long counts[5] = {0};
    unsigned char *bytes = malloc(MOST);
    for (int at = 2; at < argc && count < 256; at++)
        read_seed(argv[at]);
    for (int run = 0; run < atoi(argv[1]); run++) {
        size_t n = run % 3 == 0 ? random_bytes(bytes) : run % 3 == 1 || !count ? random_pieces(bytes) : changed_seed(bytes);
        unsigned char *exact = malloc(n ? n : 1);
        memcpy(exact, bytes, n);
        if (!holds(exact, n, counts) || !holds_one_by_one(exact, n)) {
            fwrite(exact, 1, n, stdout);
            return 1;
        }
        free(exact);
    }
    printf("fuzz: clean %lu, broken %lu, nothing %lu, unread %lu, no log %lu\n", counts[0], counts[1], counts[2], counts[3], counts[4]);
    for (size_t at = 0; at < count; at++)
        free(seeds[at]);
    free(bytes);
    return 0;
}
