/* A shared object to be loaded before a program. It lets these calls fail:
   - renames of a file whose name ends in FAIL_RENAME, or in KILL_RENAME, which ends the program at once,
   - opens of a file whose name ends in FAIL_OPEN,
   - all hard links, if FAIL_LINK is set,
   - syncs of a file whose name ends in FAIL_SYNC, as on a disk that fails,
   - writes into a file whose name ends in FAIL_WRITE, from the byte FAIL_FROM of the file on, as on a disk that is full,
   - all changes of permission bits, if FAIL_MODE is set, and of times, if FAIL_TIME is set, as on a file system where they cannot be set,
   - syncs of folders, if FAIL_FOLDERS is set, as on a file system that cannot sync a folder.
   It writes the path of each file that is removed into the file UNLINK_LOG, if this is set. */
#define _GNU_SOURCE
#include <dlfcn.h>
#include <errno.h>
#include <fcntl.h>
#include <signal.h>
#include <stdarg.h>
#include <stdio.h>
#include <stdlib.h>
#include <string.h>
#include <sys/stat.h>
#include <unistd.h>

/* Returns whether a path ends in the value of a variable of the environment. */
static int ends(const char *path, const char *variable)
{
    const char *end = getenv(variable);
    return end && strlen(path) >= strlen(end) && !strcmp(path + strlen(path) - strlen(end), end);
}

int open(const char *path, int flags, ...)
{
    int (*next)(const char *, int, ...) = (int (*)(const char *, int, ...))dlsym(RTLD_NEXT, "open");
    va_list more;
    va_start(more, flags);
    mode_t mode = flags & O_CREAT ? va_arg(more, mode_t) : 0;
    va_end(more);
    if (ends(path, "FAIL_OPEN")) {
        errno = EACCES;
        return -1;
    }
    return next(path, flags, mode);
}

int rename(const char *from, const char *to)
{
    int (*next)(const char *, const char *) = (int (*)(const char *, const char *))dlsym(RTLD_NEXT, "rename");
    if (ends(from, "KILL_RENAME")) kill(getpid(), SIGKILL);
    if (ends(from, "FAIL_RENAME")) {
        errno = EIO;
        return -1;
    }
    return next(from, to);
}

int unlink(const char *path)
{
    int (*next)(const char *) = (int (*)(const char *))dlsym(RTLD_NEXT, "unlink");
    FILE *log = getenv("UNLINK_LOG") ? fopen(getenv("UNLINK_LOG"), "a") : NULL;
    if (log) {
        fprintf(log, "%s\n", path);
        fclose(log);
    }
    return next(path);
}

int link(const char *from, const char *to)
{
    int (*next)(const char *, const char *) = (int (*)(const char *, const char *))dlsym(RTLD_NEXT, "link");
    if (getenv("FAIL_LINK")) {
        errno = EPERM;
        return -1;
    }
    return next(from, to);
}

/* Returns whether the path of an open file ends in the value of a variable of the environment. */
static int ends_open(int file, const char *variable)
{
    char link[64], path[4096];
    snprintf(link, sizeof link, "/proc/self/fd/%d", file);
    ssize_t length = readlink(link, path, sizeof path - 1);
    path[length < 0 ? 0 : length] = 0;
    return ends(path, variable);
}

ssize_t write(int file, const void *bytes, size_t count)
{
    ssize_t (*next)(int, const void *, size_t) = (ssize_t (*)(int, const void *, size_t))dlsym(RTLD_NEXT, "write");
    if (getenv("FAIL_WRITE") && ends_open(file, "FAIL_WRITE") && lseek(file, 0, SEEK_CUR) >= atol(getenv("FAIL_FROM"))) {
        errno = ENOSPC;
        return -1;
    }
    return next(file, bytes, count);
}

/* Returns 0, or -1 with the error EPERM if a variable of the environment is set. */
static int refused(const char *variable)
{
    errno = EPERM;
    return getenv(variable) ? -1 : 0;
}

int fchmod(int file, mode_t mode)
{
    int (*next)(int, mode_t) = (int (*)(int, mode_t))dlsym(RTLD_NEXT, "fchmod");
    return refused("FAIL_MODE") ? -1 : next(file, mode);
}

int chmod(const char *path, mode_t mode)
{
    int (*next)(const char *, mode_t) = (int (*)(const char *, mode_t))dlsym(RTLD_NEXT, "chmod");
    return refused("FAIL_MODE") ? -1 : next(path, mode);
}

int futimens(int file, const struct timespec times[2])
{
    int (*next)(int, const struct timespec *) = (int (*)(int, const struct timespec *))dlsym(RTLD_NEXT, "futimens");
    return refused("FAIL_TIME") ? -1 : next(file, times);
}

int utimensat(int folder, const char *path, const struct timespec times[2], int flags)
{
    int (*next)(int, const char *, const struct timespec *, int) = (int (*)(int, const char *, const struct timespec *, int))dlsym(RTLD_NEXT, "utimensat");
    return refused("FAIL_TIME") ? -1 : next(folder, path, times, flags);
}

int fsync(int file)
{
    int (*next)(int) = (int (*)(int))dlsym(RTLD_NEXT, "fsync");
    struct stat found;
    if (ends_open(file, "FAIL_SYNC")) {
        errno = EIO;
        return -1;
    }
    if (getenv("FAIL_FOLDERS") && !fstat(file, &found) && S_ISDIR(found.st_mode)) {
        errno = EINVAL;
        return -1;
    }
    return next(file);
}
