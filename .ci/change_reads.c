/* Loaded before a program (LD_PRELOAD): changes how it reads the file whose path ends in READ_NAME. Other files are read as they are.

   Every second call of read is interrupted (EINTR), and the others give at most READ_MOST bytes. A call that begins at a byte from
   READ_FROM to READ_TO - 1 fails with EIO, and a call that begins before READ_FROM ends there. After READ_AFTER bytes of the file were
   read in all, each byte is read inverted. If READ_GROWS is set, the first call appends a byte to the file. If READ_WRITES is set, it
   writes a byte over the first one. A number that is not set changes nothing. */
#define _GNU_SOURCE
#include <errno.h>
#include <fcntl.h>
#include <stdio.h>
#include <stdlib.h>
#include <string.h>
#include <sys/syscall.h>
#include <unistd.h>

static long number(const char *name, long otherwise) {
    const char *text = getenv(name);
    return text ? atol(text) : otherwise;
}

/* Returns whether a stream is the file that is changed, and writes its path. */
static int is_changed(int stream, char *path, size_t size) {
    const char *name = getenv("READ_NAME");
    char link[64];
    snprintf(link, sizeof link, "/proc/self/fd/%d", stream);
    ssize_t length = readlink(link, path, size - 1);
    if (!name || length < (ssize_t)strlen(name)) return 0;
    path[length] = 0;
    return !strcmp(path + length - strlen(name), name);
}

static void change(const char *path) {
    static int changed;
    if (changed || (!getenv("READ_GROWS") && !getenv("READ_WRITES"))) return;
    changed = 1;
    int stream = open(path, O_WRONLY | (getenv("READ_GROWS") ? O_APPEND : 0));
    syscall(SYS_write, stream, "x", 1);
    close(stream);
}

ssize_t read(int stream, void *bytes, size_t count) {
    static int interrupted;
    static long taken;
    char path[4096];
    if (!is_changed(stream, path, sizeof path)) return syscall(SYS_read, stream, bytes, count);
    change(path);
    interrupted = !interrupted;
    if (interrupted) {
        errno = EINTR;
        return -1;
    }
    long from = number("READ_FROM", -1), to = number("READ_TO", -1), most = number("READ_MOST", 1L << 40);
    long at = lseek(stream, 0, SEEK_CUR);
    if ((from <= at && at < to) || taken >= number("READ_LAST", 1L << 62)) {
        errno = EIO;
        return -1;
    }
    if (at < from && from - at < most) most = from - at;
    ssize_t got = syscall(SYS_read, stream, bytes, count < (size_t)most ? count : (size_t)most);
    for (ssize_t i = 0; i < got; i++)
        if (taken + i >= number("READ_AFTER", 1L << 62)) ((char *)bytes)[i] ^= -1;
    if (got > 0) taken += got;
    return got;
}
