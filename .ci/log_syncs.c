/* A shared object to be loaded before a program: it writes a line into the file SYNC_LOG for each sync of a file, for each new name, and for
   each change of permission bits, with the bits before in octal. */
#define _GNU_SOURCE
#include <dlfcn.h>
#include <stdio.h>
#include <stdlib.h>
#include <sys/stat.h>
#include <unistd.h>

static void note(const char *what, const char *one, const char *other)
{
    FILE *log = fopen(getenv("SYNC_LOG"), "a");
    fprintf(log, "%s\t%s\t%s\n", what, one, other);
    fclose(log);
}

/* Writes the path of an open file. */
static void find_path(int file, char *path, size_t size)
{
    char link[64];
    snprintf(link, sizeof link, "/proc/self/fd/%d", file);
    ssize_t length = readlink(link, path, size - 1);
    path[length < 0 ? 0 : length] = 0;
}

int fsync(int file)
{
    int (*next)(int) = (int (*)(int))dlsym(RTLD_NEXT, "fsync");
    char path[4096];
    find_path(file, path, sizeof path);
    note("sync", path, "");
    return next(file);
}

int fchmod(int file, mode_t mode)
{
    int (*next)(int, mode_t) = (int (*)(int, mode_t))dlsym(RTLD_NEXT, "fchmod");
    struct stat before;
    char path[4096], bits[16];
    find_path(file, path, sizeof path);
    snprintf(bits, sizeof bits, "%o", fstat(file, &before) ? 07777 : before.st_mode & 07777);
    note("mode", path, bits);
    return next(file, mode);
}

int rename(const char *from, const char *to)
{
    int (*next)(const char *, const char *) = (int (*)(const char *, const char *))dlsym(RTLD_NEXT, "rename");
    note("rename", from, to);
    return next(from, to);
}
