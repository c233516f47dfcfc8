/* A malloc of the test's own, which counts the requests of each thread, and those of one size. Its memory is not used
   again. */
#include <stddef.h>
#include <string.h>

static unsigned char heap[(size_t)1 << 28];
static size_t heap_used;
static __thread long requests, requests_watched;
static __thread size_t watched;

/* A block has its size in the 64 bytes before it. */
static void *heap_block(size_t size) {
    size_t whole = 64 + (size + 63) / 64 * 64, from = __sync_fetch_and_add(&heap_used, whole);
    requests++;
    requests_watched += size == watched;
    if (size > sizeof heap || from > sizeof heap - whole) return NULL;
    memcpy(heap + from, &size, sizeof size);
    return heap + from + 64;
}

void *malloc(size_t size) {
    return heap_block(size);
}

void *calloc(size_t number, size_t size) {
    void *at = heap_block(number * size);
    return at ? memset(at, 0, number * size) : NULL;
}

void *realloc(void *old, size_t size) {
    size_t kept = 0;
    void *at = heap_block(size);
    if (old) memcpy(&kept, (char *)old - 64, sizeof kept);
    return at && old ? memcpy(at, old, kept < size ? kept : size) : at;
}

void free(void *at) {
    (void)at;
}
