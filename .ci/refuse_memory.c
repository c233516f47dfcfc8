/* Loaded before a program (LD_PRELOAD): counts requests for memory, and refuses one of them.

   It counts all requests. If WATCHED is set, it counts only those between two signals. The signals are requests of BEGIN and of END
   bytes, and are refused themselves. REFUSED is the number of the request that is refused. At the end it writes two lines to file
   descriptor 3. The first has the number of requests, the number of signals, and the number of bytes that were not given back. The
   second has the sizes of the requests, of the first NOTED ones. */
#define _GNU_SOURCE
#include <dlfcn.h>
#include <stdio.h>
#include <stdlib.h>

enum { BEGIN = 10007, END = 10009, NOTED = 1024 };

static unsigned long requests, signals;
static size_t sizes[NOTED];
static void *blocks[NOTED];
static int watched, ended;

/* Returns the number of the request if it is counted and granted, 0 if it is not counted, and -1 if it is refused. */
static long number_of(size_t size) {
    const char *refused = getenv("REFUSED");
    if (ended) return 0;
    if (getenv("WATCHED") && (size == BEGIN || size == END)) {
        signals++;
        watched = size == BEGIN;
        return -1;
    }
    if (!watched && getenv("WATCHED")) return 0;
    if (requests < NOTED) sizes[requests] = size;
    requests++;
    return refused && strtoul(refused, NULL, 10) == requests ? -1 : (long)requests;
}

static void *taken(long number, void *block) {
    if (number > 0 && number <= NOTED) blocks[number - 1] = block;
    return block;
}

/* Notes that a block was given back. This may happen at any time, watched or not. */
static void given_back(void *block) {
    for (unsigned long i = 0; block && i < requests && i < NOTED; i++)
        if (blocks[i] == block) blocks[i] = NULL;
}

void *malloc(size_t size) {
    static void *(*next)(size_t);
    if (!next) next = dlsym(RTLD_NEXT, "malloc");
    long number = number_of(size);
    return number < 0 ? NULL : taken(number, next(size));
}

void *calloc(size_t count, size_t size) {
    static void *(*next)(size_t, size_t);
    if (!next) next = dlsym(RTLD_NEXT, "calloc");
    long number = number_of(count * size);
    return number < 0 ? NULL : taken(number, next(count, size));
}

void *realloc(void *old, size_t size) {
    static void *(*next)(void *, size_t);
    if (!next) next = dlsym(RTLD_NEXT, "realloc");
    long number = number_of(size);
    if (number < 0) return NULL;
    given_back(old);
    return taken(number, next(old, size));
}

void free(void *block) {
    static void (*next)(void *);
    if (!next) next = dlsym(RTLD_NEXT, "free");
    given_back(block);
    next(block);
}

__attribute__((destructor)) static void tell(void) {
    unsigned long left = 0;
    ended = 1; /* Writing requests memory too, which is not counted. */
    for (unsigned long i = 0; i < requests && i < NOTED; i++)
        if (blocks[i]) left += sizes[i];
    dprintf(3, "%lu %lu %lu\n", requests, signals, left);
    for (unsigned long i = 0; i < requests && i < NOTED; i++) dprintf(3, "%zu ", sizes[i]);
    dprintf(3, "\n");
}
