/* nomem FORMAT FILE..: each allocation fails once while a file is judged, and while the rules are written. With the format 0 it also fails
 * once in each function of a session, where a file is judged one message at a time. Link it with
 * -Wl,--wrap=rattle_alloc,--wrap=rattle_realloc. */
#include "lsp_judge.h"
#include <stdio.h>
#include <stdlib.h>
#include <string.h>

#define MOST (1 << 20)

struct block {
    size_t ok;
    void *at;
};

struct block __real_rattle_alloc(size_t bytes, size_t align);
struct block __real_rattle_realloc(void *at, size_t bytes, size_t align, size_t wanted);

/* How many allocations are still to succeed before the one that fails; NEVER: none fails; FAILED: it has failed. */
#define NEVER -1
#define FAILED -2
static long left = NEVER;
static char none;

static int fails(void) {
    if (left == 0) {
        left = FAILED;
        return 1;
    }
    if (left > 0)
        left--;
    return 0;
}

struct block __wrap_rattle_alloc(size_t bytes, size_t align) {
    return fails() ? (struct block){0, &none} : __real_rattle_alloc(bytes, align);
}

struct block __wrap_rattle_realloc(void *at, size_t bytes, size_t align, size_t wanted) {
    return fails() ? (struct block){0, &none} : __real_rattle_realloc(at, bytes, align, wanted);
}

static unsigned char log_[MOST], report[MOST], whole[MOST];

static int judge(struct lsp_judge_options *options, size_t n, unsigned char *out, struct lsp_judge_verdict *verdict) {
    *verdict = (struct lsp_judge_verdict){sizeof *verdict, 0, 0, 0};
    return options ? lsp_judge_log(options, log_, n, out, MOST, verdict) : lsp_judge_rules(out, MOST, verdict);
}

/* How many allocations there are, each of which failed in a run of its own; -1 if an answer was wrong. */
static long all_fail(struct lsp_judge_options *options, size_t n) {
    struct lsp_judge_verdict v, w;
    int good = judge(options, n, whole, &w);
    for (long run = 0;; run++) {
        left = run;
        int status = judge(options, n, report, &v), failed = left == FAILED;
        left = NEVER;
        if (status == LSP_JUDGE_FAILED && (v.written || v.needed || v.unread))
            return -1;
        if (status != LSP_JUDGE_FAILED && (status != good || v.written != w.written || memcmp(report, whole, v.written)))
            return -1;
        if (!failed)
            return status == good ? run : -1;
    }
}

/* ---- one message at a time */

static struct lsp_judge_options every = {sizeof every, 0, 0, LSP_JUDGE_BOTH, LSP_JUDGE_IMPLIED, 0, LSP_JUDGE_CAPABILITIES};
static struct lsp_judge_session session = LSP_JUDGE_CLOSED;

static int is_refused(struct lsp_judge_verdict *v) {
    int message = lsp_judge_message(&session, 0, 1, log_, 1, report, MOST, v);
    return message == LSP_JUDGE_REFUSED && lsp_judge_end(&session, 0, report, MOST, v) == LSP_JUDGE_REFUSED;
}

/* What a failed call leaves: no verdict, and a session that is closed, and that can be freed, and freed again. */
static int is_closed(struct lsp_judge_verdict *v) {
    int good = !v->written && !v->needed && !v->unread && !session.is_open && is_refused(v);
    lsp_judge_free(&session);
    lsp_judge_free(&session);
    return good && !session.is_open;
}

/* Opens a session, and then again, so that one is open where the second call fails: that one stays. */
static int opens(void) {
    int first = lsp_judge_new(&every, &session);
    if (first == LSP_JUDGE_FAILED)
        return !session.is_open && lsp_judge_new(&every, &session) == 0;
    void *kept = session.at;
    int second = lsp_judge_new(&every, &session);
    return !first && session.is_open && (second ? second == LSP_JUDGE_FAILED && session.at == kept : 1);
}

/* Judges the lines of the log one by one: the status in the end, or FAILED; -1 if an answer was wrong. */
static int one_by_one(size_t n, unsigned char *out, size_t *used) {
    struct lsp_judge_verdict v = {.size = sizeof v};
    int status = 0;
    *used = 0;
    if (!opens())
        return -1;
    for (size_t at = 0, place = 1; at < n; place++) {
        size_t end = at;
        while (end < n && log_[end] != '\n')
            end++;
        v.written = v.needed = v.unread = 0;
        if (end >= at + 3)
            status = lsp_judge_message(&session, log_[at] == '<', place, log_ + at + 3, end - at - 3, out + *used, MOST - *used, &v);
        if (status == LSP_JUDGE_FAILED)
            return is_closed(&v) ? status : -1;
        *used += v.written;
        at = end + 1;
    }
    v.written = v.needed = v.unread = 0;
    status = lsp_judge_end(&session, LSP_JUDGE_BOTH_ENDED, out + *used, MOST - *used, &v);
    *used += v.written;
    return is_closed(&(struct lsp_judge_verdict){.size = sizeof v}) ? status : -1;
}

static long all_fail_one_by_one(size_t n) {
    size_t had, has;
    int good = one_by_one(n, whole, &had);
    for (long run = 0;; run++) {
        left = run;
        int status = one_by_one(n, report, &has), failed = left == FAILED;
        left = NEVER;
        if (status < 0 || (status != LSP_JUDGE_FAILED && (status != good || has != had)) || memcmp(report, whole, has))
            return -1;
        if (!failed)
            return status == good ? run : -1;
    }
}

int main(int argc, char **argv) {
    long runs = all_fail(NULL, 0), more;
    struct lsp_judge_options options = {sizeof options, 0, (uint8_t)atoi(argv[1]), LSP_JUDGE_BOTH, LSP_JUDGE_IMPLIED, 0, 0};
    for (int at = 2; at < argc && runs >= 0; at++) {
        FILE *file = fopen(argv[at], "rb");
        size_t n = file ? fread(log_, 1, MOST, file) : 0;
        more = n && file ? all_fail(&options, n) : -1;
        long others = more >= 0 && !options.format ? all_fail_one_by_one(n) : 0;
        more = others < 0 ? -1 : more + others;
        if (more < 0)
            printf("nomem: %s\n", argv[at]);
        runs = more < 0 ? -1 : runs + more;
        fclose(file);
    }
    printf("nomem: %ld allocations failed once\n", runs);
    return runs <= 0;
}
