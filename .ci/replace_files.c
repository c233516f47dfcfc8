/* A shared object to be loaded before a program. Once while the program runs, it puts something else in the place of the file at the path
   REPLACED, as somebody who may write into its folder can do:
   - after the program has given a length to a file whose path ends in AT_LENGTH: then it has begun to write this file, or
   - before the program opens a file whose path ends in AT_OPEN, or
   - before it renames a file whose path ends in AT_RENAME.
   REPLACED_BY is the target of a symbolic link that takes the place of the file. If it is not set, a pipe does. */
#define _GNU_SOURCE
#include <dlfcn.h>
#include <fcntl.h>
#include <stdarg.h>
#include <stdio.h>
#include <stdlib.h>
#include <string.h>
#include <sys/stat.h>
#include <unistd.h>

/* Replaces the file, if a path ends in the value of a variable of the environment. */
static void replace_at(const char *path, const char *variable)
{
    static int is_done;
    const char *end = getenv(variable), *replaced = getenv("REPLACED"), *target = getenv("REPLACED_BY");
    if (is_done || !end || strlen(path) < strlen(end) || strcmp(path + strlen(path) - strlen(end), end)) return;
    is_done = 1;
    if (unlink(replaced) || (target ? symlink(target, replaced) : mkfifo(replaced, 0600))) abort();
}

int open(const char *path, int flags, ...)
{
    int (*next)(const char *, int, ...) = (int (*)(const char *, int, ...))dlsym(RTLD_NEXT, "open");
    va_list more;
    va_start(more, flags);
    mode_t mode = flags & O_CREAT ? va_arg(more, mode_t) : 0;
    va_end(more);
    replace_at(path, "AT_OPEN");
    return next(path, flags, mode);
}

int rename(const char *from, const char *to)
{
    int (*next)(const char *, const char *) = (int (*)(const char *, const char *))dlsym(RTLD_NEXT, "rename");
    replace_at(from, "AT_RENAME");
    return next(from, to);
}

int ftruncate(int file, off_t length)
{
    int (*next)(int, off_t) = (int (*)(int, off_t))dlsym(RTLD_NEXT, "ftruncate");
    char link[64], path[4096];
    snprintf(link, sizeof link, "/proc/self/fd/%d", file);
    ssize_t count = readlink(link, path, sizeof path - 1);
    path[count < 0 ? 0 : count] = 0;
    int status = next(file, length);
    replace_at(path, "AT_LENGTH");
    return status;
}
