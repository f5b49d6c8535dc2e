/* lsp_judge: judges what passed between an LSP client and a server, by JSON-RPC 2.0 and LSP 3.17. C99 and C++. It needs the C library alone. */
#ifndef LSP_JUDGE_H
#define LSP_JUDGE_H
#include <stddef.h>
#include <stdint.h>
#ifdef __cplusplus
extern "C" {
#endif

/* Major * 1,000,000 + minor * 1,000 + patch. */
#define LSP_JUDGE_VERSION 26000

/* Statuses. The first four are those of the program lsp_check. */
#define LSP_JUDGE_CLEAN 0   /* there is a message, every line was read, and no rule that counts is broken */
#define LSP_JUDGE_BROKEN 1  /* a rule that counts is broken */
#define LSP_JUDGE_NOTHING 2 /* there is no message */
#define LSP_JUDGE_UNREAD 3  /* a line was not read. What was read breaks no rule that counts */
#define LSP_JUDGE_FAILED 4  /* nothing is said. An allocation failed; or another log is frames of one direction, or has more than 64 servers */
#define LSP_JUDGE_REFUSED 5 /* nothing is said. An option or a `size` has a value that this header does not name */

/* The format of a log. */
#define LSP_JUDGE_RECORDING 0 /* each line is `-> ` (to the server) or `<- ` (to the client) and a content part in one line, or it is blank */
#define LSP_JUDGE_ANY_LOG 1   /* a recording or the log of an editor. The first lines show which it is, and lsp_check reads the same logs */

/* Whose breaches count. */
#define LSP_JUDGE_SERVER 0
#define LSP_JUDGE_CLIENT 1
#define LSP_JUDGE_BOTH 2

/* The weakest level that counts. */
#define LSP_JUDGE_MUST 0
#define LSP_JUDGE_SHOULD 1
#define LSP_JUDGE_IMPLIED 2

/* A group of rules beside those of a session. */
#define LSP_JUDGE_CAPABILITIES 1

/* Of the two formats, only LSP_JUDGE_RECORDING has `from_line`, and only LSP_JUDGE_ANY_LOG has groups of rules. */
struct lsp_judge_options {
    uint64_t size;       /* sizeof(struct lsp_judge_options) */
    uint64_t from_line;  /* the messages before this line are judged, and not reported. 0 and 1: all is reported */
    uint8_t format;
    uint8_t side;
    uint8_t level;
    uint8_t begins_late; /* 1: the first messages of a log that does not begin with `initialize` may be missing. 0: none is missing */
    uint32_t groups;     /* 0 or LSP_JUDGE_CAPABILITIES */
};

struct lsp_judge_verdict {
    uint64_t size;    /* sizeof(struct lsp_judge_verdict), which the caller writes */
    uint64_t unread;  /* of a recording: the first line that was not read, from 1 on; 0: every line was read. Of another log: 0 */
    uint64_t needed;  /* the bytes of the whole report */
    uint64_t written; /* the bytes of it that were written. If the room is too small, these are its first lines that fit whole */
};

/* Judges a log, and returns the status. The report is lines of JSON, as `lsp_check --json` prints them, with "file":"log". The bytes of the
 * room after `written` are undefined. If `needed` is more than `report_len`, call again with that room. After the statuses 4 and 5 the
 * verdict is unchanged.
 *
 * A rule counts if it is of the chosen side, and of the chosen level or a stronger one. A breach that is not certain ("perhaps") is
 * reported, and never counts. In another log than a recording, lines between the messages are skipped, and a last line that was cut is
 * reported and is no reason for status 3.
 *
 * The caller has to keep this, and nothing checks it:
 * - No pointer is null, also where the length is 0. `options`, `log`, `report` and `verdict` do not overlap.
 * - Nobody else writes to them during the call.
 * - The call is not made in a signal handler, nor in a forked child of a process with threads.
 * - The thread has 128 KB of stack left.
 * - malloc, realloc and free belong to one allocator, and align as those of the C library do.
 * Any number of threads may call at the same time.
 *
 * Proved about recordings, for each log and each value of the options:
 * - Status 0: there is a message, every line was read, and no rule that counts is broken.
 * - Status 0, where both sides and the level IMPLIED are chosen and begins_late is 0: in each session, after each line, each reply answers
 *   one request that passed before it, each request has at most one reply, and both sides keep the order of the lifecycle.
 * - Status 1, and `unread` is 0: a rule that counts is broken.
 * - Status 2, and `unread` is 0: there is no message.
 * - Status 3: `unread` is not 0.
 * - `unread` is as above.
 * Proved about each log:
 * - The status is 5 exactly if an option or a `size` has another value than this header names.
 * - `written` is at most `report_len`. If `needed` is at most `report_len`, then `written` is `needed`.
 * - No byte outside the room and the verdict is written, and no byte outside the given lengths is read.
 * Tested, and not proved: the text of the report, the readers of other logs, that status 4 comes only as this header says, and what
 * statuses 1 to 3 say where `unread` is not 0. */
uint8_t lsp_judge_log(const struct lsp_judge_options *options, const uint8_t *log, size_t log_len, uint8_t *report, size_t report_len,
                      struct lsp_judge_verdict *verdict);

/* ---- One message at a time
 *
 * A program keeps a session, and judges each message when it passes:
 *
 *     struct lsp_judge_session session = LSP_JUDGE_CLOSED;
 *     status = lsp_judge_new(&options, &session);
 *     status = lsp_judge_message(&session, LSP_JUDGE_TO_SERVER, 1, content, content_len, report, report_len, &verdict);
 *     status = lsp_judge_message(&session, LSP_JUDGE_TO_CLIENT, 2, ..);
 *     status = lsp_judge_end(&session, LSP_JUDGE_NO_SIDE_ENDED, report, report_len, &verdict);
 *
 * A session is judged as the recording that has these messages in its lines: the last call above returns the status of that recording, and
 * all reports together are its report. */

/* The direction of a message. */
#define LSP_JUDGE_TO_SERVER 0
#define LSP_JUDGE_TO_CLIENT 1

/* Which sides have ended: a request to a side that has ended gets no reply. A side has also ended where the notification `exit` passed. */
#define LSP_JUDGE_NO_SIDE_ENDED 0 /* a recording is judged so */
#define LSP_JUDGE_SERVER_ENDED 1
#define LSP_JUDGE_CLIENT_ENDED 2
#define LSP_JUDGE_BOTH_ENDED 3

/* A session. The members belong to the library. */
struct lsp_judge_session {
    void *at;
    uint8_t is_open;
};

/* What a session has to be before its first use. */
#define LSP_JUDGE_CLOSED {NULL, 0}

/* Opens a session, and returns 0. A session that is open is freed first. The status is 4 if an allocation failed, and 5 if an option or the
 * `size` is refused. After both the session is unchanged. `format` may be 0 or 1 and says nothing, `from_line` may be 0 or 1, and each
 * group of rules may be chosen. */
uint8_t lsp_judge_new(const struct lsp_judge_options *options, struct lsp_judge_session *session);

/* Judges one more message by its content part, and returns the status:
 * - 0: each content was read, and no rule that counts is broken so far.
 * - 1: a rule that counts is broken, by this message or one before it. The line of a breach that counts has "fails":true.
 * - 3: a content was not read, this one or one before it. No rule that counts is broken so far.
 * - 4: an allocation failed. The session is closed.
 * - 5: the session is closed, a `size` is wrong, the direction is neither 0 nor 1, or the place is 0. The session is unchanged.
 *
 * The place is the message's number, from 1 on. The report names it as the line. `unread` is the place of the first content that was not
 * read, or 0. A content was read if it is JSON in UTF-8. If the report does not fit, the first lines that fit whole are written, `needed`
 * says how many bytes there were, and the others are lost: the message is judged, and is not to be passed again. */
uint8_t lsp_judge_message(struct lsp_judge_session *session, uint8_t direction, uint64_t place, const uint8_t *content, size_t content_len,
                          uint8_t *report, size_t report_len, struct lsp_judge_verdict *verdict);

/* Ends a session, tells the requests without a reply and how much there was, and closes the session. The status is 0 to 3 as that of
 * lsp_judge_log, or
 * - 4: an allocation failed. The session is closed.
 * - 5: the session is closed, a `size` is wrong, or `ended` is more than 3. The session is unchanged. */
uint8_t lsp_judge_end(struct lsp_judge_session *session, uint8_t ended, uint8_t *report, size_t report_len, struct lsp_judge_verdict *verdict);

/* Closes a session, and frees its memory. A session that is closed stays so. */
void lsp_judge_free(struct lsp_judge_session *session);

/* What the caller has to keep for lsp_judge_log it has to keep for these four too, and this: the session is LSP_JUDGE_CLOSED before its
 * first use, only these functions write to it, one call at a time is made with it, and no copy of it is used beside it. Different sessions
 * can be used by different threads. One that is not closed in the end keeps its memory.
 *
 * Proved, for each session and each message:
 * - lsp_judge_new returns 0 only for options that are named above, and opens a session in which no message passed and these options count.
 * - A status below 4 of lsp_judge_message says just what the definitions of a recording say after one more line with this message. A
 *   content that was not read breaks one rule alone: NotUtf8 if it is not UTF-8, and else NotJson or Unreadable.
 * - A status below 4 of lsp_judge_end is that of the messages that passed, with those requests that have no reply and whose side has ended.
 * - If the messages of a recording pass one after another, and each of its lines can be read, the session is judged as that recording.
 * - The status is 5 exactly if the session is closed or an argument has another value than this header names.
 * - After the status 4 of lsp_judge_message the session is closed. After each status of lsp_judge_end but 5, and after lsp_judge_free, it
 *   is closed.
 * - `unread` is as above. After the statuses 4 and 5 the verdict is unchanged.
 * - `written` is at most `report_len`. If `needed` is at most `report_len`, then `written` is `needed`.
 * - No session is freed twice, however often these functions are called, and nothing is read of one that was freed.
 * Tested, and not proved: the text of the report, that status 4 comes only as this header says, and that all memory is freed in the end. */

/* Writes the rules, a line of JSON for each, as `lsp_check rules --json` prints them. The status is 0, or 4 if an allocation failed, or 5
 * for another `size`. */
uint8_t lsp_judge_rules(uint8_t *report, size_t report_len, struct lsp_judge_verdict *verdict);

/* Returns the version of the library, as LSP_JUDGE_VERSION. */
uint32_t lsp_judge_version(void);
#ifdef __cplusplus
}
#endif
#endif
