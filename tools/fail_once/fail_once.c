// Loaded before the C library, it makes one call of a program fail, or cuts all its reads and writes into pieces.
//
// FAIL_ONCE says what happens, in the words that `run` makes:
//   memory N            the Nth allocation is refused
//   memory-from N       the Nth allocation is refused, and each one after it
//   elsewhere N         of the allocations that other threads than the first make, the Nth is refused
//   thread N            the Nth thread is not started
//   socket N            the Nth call that makes a socket or sets it up fails
//   read N HOW          of the Nth read: `error` fails it, `interrupt` interrupts it, `short` lets it move one byte
//   write N HOW         the same of the Nth write
//   none 0              nothing fails
//
// Two more words, `in K`, say that no read or write moves more than K bytes.
//
// FAIL_ONCE_COUNTS names a file of 72 bytes. It holds, as 9 numbers of 64 bits, how many calls there were of memory, threads,
// sockets, reads and writes, how many calls were made to fail, how many threads still ran a second after `main` had
// returned, where one was not started, the most bytes that one allocation asked for, and how many allocations other threads
// than the first made. It is kept up to date while the program runs, since a program may end in any way.
#define _GNU_SOURCE
#include <dlfcn.h>
#include <errno.h>
#include <fcntl.h>
#include <pthread.h>
#include <stdarg.h>
#include <stdatomic.h>
#include <stdint.h>
#include <stdio.h>
#include <stdlib.h>
#include <string.h>
#include <sys/mman.h>
#include <sys/socket.h>
#include <sys/syscall.h>
#include <sys/types.h>
#include <sys/uio.h>
#include <unistd.h>

enum kind { MEMORY, THREAD, SOCKET, READ, WRITE, FAILED, LEFT, MOST, ELSEWHERE, NUMBERS = 9 };
static const char *const NAMES[NUMBERS] = {
    [MEMORY] = "memory", [THREAD] = "thread", [SOCKET] = "socket", [READ] = "read", [WRITE] = "write", [ELSEWHERE] = "elsewhere",
};
enum how { IS_ERROR, IS_INTERRUPT, IS_SHORT };

static _Atomic uint64_t not_shared[NUMBERS];
static _Atomic uint64_t *counts = not_shared;
static int kind_to_fail = -1;
static uint64_t place;
static int lasts;
static enum how how;
static size_t piece = SIZE_MAX;
// Whether this thread was started by another one.
static _Thread_local int is_started __attribute__((tls_model("initial-exec")));

extern void *__libc_malloc(size_t);
extern void *__libc_calloc(size_t, size_t);
extern void *__libc_realloc(void *, size_t);
extern void *__libc_memalign(size_t, size_t);
extern void __libc_free(void *);

static void share_counts(const char *path) {
    int file = open(path, O_RDWR | O_CLOEXEC);
    if (file < 0)
        return;
    void *shared = mmap(NULL, NUMBERS * sizeof(uint64_t), PROT_READ | PROT_WRITE, MAP_SHARED, file, 0);
    close(file);
    if (shared != MAP_FAILED)
        counts = shared;
}

static int is(const char *word, const char *name) { return strcmp(word, name) == 0; }

__attribute__((constructor)) static void start(void) {
    const char *path = getenv("FAIL_ONCE_COUNTS");
    if (path)
        share_counts(path);
    const char *plan = getenv("FAIL_ONCE");
    char word[32] = "", manner[32] = "";
    unsigned long long number = 0, most = 0;
    if (!plan || sscanf(plan, "%31s %llu %31s", word, &number, manner) < 2)
        return;
    place = number;
    const char *pieces = strstr(plan, " in ");
    if (pieces && sscanf(pieces, " in %llu", &most) == 1)
        piece = most;
    how = is(manner, "interrupt") ? IS_INTERRUPT : is(manner, "short") ? IS_SHORT : IS_ERROR;
    char *from = strstr(word, "-from");
    if (from)
        *from = '\0';
    for (int kind = 0; kind < NUMBERS; kind++)
        if (NAMES[kind] && is(word, NAMES[kind]))
            kind_to_fail = kind;
    lasts = from && kind_to_fail == MEMORY;
    // What this library itself has called so far is no call of the program.
    memset((void *)counts, 0, NUMBERS * sizeof(uint64_t));
}

// Counts the call, and says whether it is to fail.
static int fails(enum kind kind) {
    uint64_t number = atomic_fetch_add(&counts[kind], 1) + 1;
    int is_here = (int)kind == kind_to_fail && (number == place || (lasts && number > place));
    if (is_here)
        atomic_fetch_add(&counts[FAILED], 1);
    return is_here;
}

// Memory.

static void *refused(void) {
    errno = ENOMEM;
    return NULL;
}

// Keeps the size, where it is the greatest so far, and says whether the allocation is to fail.
static int fails_to_give(size_t size) {
    uint64_t most = counts[MOST];
    while (size > most && !atomic_compare_exchange_weak(&counts[MOST], &most, size))
        ;
    int is_refused = fails(MEMORY);
    return (is_started && fails(ELSEWHERE)) || is_refused;
}

void *malloc(size_t size) { return fails_to_give(size) ? refused() : __libc_malloc(size); }

void *calloc(size_t count, size_t size) {
    size_t all;
    if (__builtin_mul_overflow(count, size, &all))
        all = SIZE_MAX;
    return fails_to_give(all) ? refused() : __libc_calloc(count, size);
}

void *realloc(void *block, size_t size) { return fails_to_give(size) ? refused() : __libc_realloc(block, size); }

void *aligned_alloc(size_t align, size_t size) { return fails_to_give(size) ? refused() : __libc_memalign(align, size); }

int posix_memalign(void **block, size_t align, size_t size) {
    if (fails_to_give(size))
        return ENOMEM;
    void *made = __libc_memalign(align, size);
    if (!made)
        return ENOMEM;
    *block = made;
    return 0;
}

// Threads.

struct job {
    void *(*run)(void *);
    void *argument;
};

static _Atomic uint64_t running;

static void *run_job(void *given) {
    struct job job = *(struct job *)given;
    __libc_free(given);
    is_started = 1;
    void *result = job.run(job.argument);
    atomic_fetch_sub(&running, 1);
    return result;
}

int pthread_create(pthread_t *thread, const pthread_attr_t *attributes, void *(*run)(void *), void *argument) {
    static int (*real)(pthread_t *, const pthread_attr_t *, void *(*)(void *), void *);
    if (fails(THREAD))
        return EAGAIN;
    if (!real)
        *(void **)&real = dlsym(RTLD_NEXT, "pthread_create");
    struct job *job = __libc_malloc(sizeof *job);
    if (!job)
        return EAGAIN;
    *job = (struct job){run, argument};
    atomic_fetch_add(&running, 1);
    int refused = real(thread, attributes, run_job, job);
    if (refused) {
        atomic_fetch_sub(&running, 1);
        __libc_free(job);
    }
    return refused;
}

__attribute__((destructor)) static void end(void) {
    if (kind_to_fail != THREAD)
        return;
    for (int waited = 0; running && waited < 1000; waited++)
        usleep(1000);
    counts[LEFT] = running;
}

// Reads and writes.

static int fails_now(enum kind kind, size_t *size) {
    if (*size > piece)
        *size = piece;
    if (!fails(kind))
        return 0;
    if (how == IS_SHORT) {
        if (*size > 1)
            *size = 1;
        return 0;
    }
    errno = how == IS_INTERRUPT ? EINTR : EIO;
    return 1;
}

ssize_t read(int file, void *room, size_t size) {
    return fails_now(READ, &size) ? -1 : syscall(SYS_read, file, room, size);
}

ssize_t recvfrom(int file, void *room, size_t size, int flags, struct sockaddr *from, socklen_t *length) {
    return fails_now(READ, &size) ? -1 : syscall(SYS_recvfrom, file, room, size, flags, from, length);
}

ssize_t recv(int file, void *room, size_t size, int flags) { return recvfrom(file, room, size, flags, NULL, NULL); }

ssize_t write(int file, const void *bytes, size_t size) {
    return fails_now(WRITE, &size) ? -1 : syscall(SYS_write, file, bytes, size);
}

ssize_t __write(int file, const void *bytes, size_t size) { return write(file, bytes, size); }

ssize_t writev(int file, const struct iovec *parts, int count) {
    size_t size = SIZE_MAX;
    if (fails_now(WRITE, &size))
        return -1;
    if (size == SIZE_MAX || count == 0)
        return syscall(SYS_writev, file, parts, count);
    return syscall(SYS_write, file, parts->iov_base, size < parts->iov_len ? size : parts->iov_len);
}

ssize_t sendto(int file, const void *bytes, size_t size, int flags, const struct sockaddr *to, socklen_t length) {
    return fails_now(WRITE, &size) ? -1 : syscall(SYS_sendto, file, bytes, size, flags, to, length);
}

ssize_t send(int file, const void *bytes, size_t size, int flags) {
    return sendto(file, bytes, size, flags, NULL, 0);
}

ssize_t sendmsg(int file, const struct msghdr *message, int flags) {
    size_t size = SIZE_MAX;
    if (fails_now(WRITE, &size))
        return -1;
    if (size == SIZE_MAX || message->msg_iovlen == 0)
        return syscall(SYS_sendmsg, file, message, flags);
    struct iovec first = message->msg_iov[0];
    return syscall(SYS_sendto, file, first.iov_base, size < first.iov_len ? size : first.iov_len, flags, NULL, 0);
}

// Sockets.

static int no_room(void) {
    errno = ENOBUFS;
    return -1;
}

#define CALL(name, parameters, ...) \
    int name parameters { return fails(SOCKET) ? no_room() : (int)syscall(SYS_##name, __VA_ARGS__); }

CALL(socket, (int domain, int type, int protocol), domain, type, protocol)
CALL(bind, (int file, const struct sockaddr *address, socklen_t length), file, address, length)
CALL(listen, (int file, int waiting), file, waiting)
CALL(accept4, (int file, struct sockaddr *address, socklen_t *length, int flags), file, address, length, flags)
CALL(connect, (int file, const struct sockaddr *address, socklen_t length), file, address, length)
CALL(setsockopt, (int file, int level, int name, const void *value, socklen_t size), file, level, name, value, size)
CALL(getsockname, (int file, struct sockaddr *address, socklen_t *length), file, address, length)
CALL(shutdown, (int file, int ways), file, ways)
CALL(dup, (int file), file)

int fcntl(int file, int command, ...) {
    va_list arguments;
    va_start(arguments, command);
    void *argument = va_arg(arguments, void *);
    va_end(arguments);
    int copies = command == F_DUPFD || command == F_DUPFD_CLOEXEC;
    return copies && fails(SOCKET) ? no_room() : (int)syscall(SYS_fcntl, file, command, argument);
}
