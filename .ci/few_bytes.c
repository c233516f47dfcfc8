// Loaded before a program (LD_PRELOAD): the stream STREAM (1 or 2) accepts one byte in each call and is interrupted before each
// byte. After ROOM bytes every call fails.
#define _GNU_SOURCE
#include <errno.h>
#include <stdlib.h>
#include <sys/syscall.h>
#include <unistd.h>

static long number(const char *name) {
    const char *text = getenv(name);
    return text ? atol(text) : 0;
}

ssize_t write(int stream, const void *bytes, size_t count) {
    static long taken;
    static int interrupted;
    if (stream != number("STREAM")) {
        return syscall(SYS_write, stream, bytes, count);
    }
    interrupted = !interrupted;
    if (interrupted) {
        errno = EINTR;
        return -1;
    }
    if (taken == number("ROOM")) {
        errno = ENOSPC;
        return -1;
    }
    taken++;
    return syscall(SYS_write, stream, bytes, count > 0 ? 1 : 0);
}
