/* A library that makes a program wrong in one byte of what it writes, or in its status. tests/wrong_byte.py compiles it, and loads it into a
 * program by LD_PRELOAD. Each OLD of the environment's WRONG_OLD that the program writes in one piece becomes WRONG_NEW, which is as long.
 * With WRONG_STATUS the status 0 becomes 1, and every other one 0. */
#define _GNU_SOURCE
#include <stdlib.h>
#include <string.h>
#include <sys/socket.h>
#include <sys/syscall.h>
#include <unistd.h>

/* A copy of the bytes in which each old text is the new one, or nothing if there is none. */
static char *changed(const void *bytes, size_t size) {
    const char *old = getenv("WRONG_OLD"), *new = getenv("WRONG_NEW");
    if (!old || !new || !memmem(bytes, size, old, strlen(old)))
        return NULL;
    char *copy = malloc(size);
    if (!copy)
        abort();
    memcpy(copy, bytes, size);
    for (char *at = copy; (at = memmem(at, size - (size_t)(at - copy), old, strlen(old))); at += strlen(old))
        memcpy(at, new, strlen(old));
    return copy;
}

ssize_t write(int file, const void *bytes, size_t size) {
    char *copy = changed(bytes, size);
    ssize_t came = syscall(SYS_write, file, copy ? copy : bytes, size);
    free(copy);
    return came;
}

ssize_t send(int file, const void *bytes, size_t size, int flags) {
    char *copy = changed(bytes, size);
    ssize_t came = syscall(SYS_sendto, file, copy ? copy : bytes, size, flags, NULL, 0);
    free(copy);
    return came;
}

_Noreturn static void end(int status) {
    for (;;)
        syscall(SYS_exit_group, getenv("WRONG_STATUS") ? status == 0 : status);
}

void _exit(int status) { end(status); }

/* A program that returns from `main` ends so. */
static void end_at_exit(int status, void *nothing) {
    (void)nothing;
    end(status);
}

__attribute__((constructor)) static void begin(void) { on_exit(end_at_exit, NULL); }
