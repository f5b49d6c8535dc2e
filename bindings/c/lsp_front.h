/* lsp_front: the header part of LSP's messages, and which message a content part is (LSP 3.17, "Base Protocol"). C99 and C++.
 *
 * `rt lib` in crates/lsp_front_c makes out/liblsp_front_c.a. Link it with the kit's c/liblibc_c.a.
 *
 * Proved: both functions return what the contracts in crates/lsp_front_c/src/lib.rt say, and read no byte beyond the given length.
 * The caller has to keep this: a pointer is not null, also with length 0, and the bytes do not change during the call. A call needs
 * up to 128 KB of stack. Neither function has state, so threads may call them at the same time. */
#ifndef LSP_FRONT_H
#define LSP_FRONT_H
#include <stddef.h>
#include <stdint.h>
#ifdef __cplusplus
extern "C" {
#endif

#define LSP_FRONT_WHOLE 0 /* `count` bytes are the first message, with its header part */
#define LSP_FRONT_MORE 1  /* more bytes have to come */
#define LSP_FRONT_FAULT 2 /* the header part is at fault: `count` is the fault */

/* Faults of a header part: 2 a line is not UTF-8, 3 a line does not end in \r\n, 4 a line has no ": ", 5 the value of Content-Length is no
 * number, 6 there is no Content-Length. */
struct lsp_front_found {
    uint8_t kind;
    size_t count;
};

/* Returns how many of the bytes that have arrived are their first message. It does not allocate. `bytes` is not null, also if `bytes_len` is 0.
 * A header part may be of any length: bound it. */
struct lsp_front_found lsp_front(const uint8_t *bytes, size_t bytes_len);

#define LSP_MESSAGE_REQUEST 0
#define LSP_MESSAGE_NOTIFICATION 1
#define LSP_MESSAGE_RESPONSE 2
#define LSP_MESSAGE_NOT_UTF8 8
#define LSP_MESSAGE_NO_JSON 9 /* or it nests more than 127 levels, or has a number that is too large */
#define LSP_MESSAGE_NONE 10   /* it is JSON, and no message of JSON-RPC 2.0 */
#define LSP_MESSAGE_MEMORY 11 /* an allocation failed, and nothing is said */
#define LSP_MESSAGE_BATCH 13

/* Returns which message a content part is. It allocates, so do not call it from a signal handler. */
uint8_t lsp_message_kind(const uint8_t *content, size_t content_len);
#ifdef __cplusplus
}
#endif
#endif
