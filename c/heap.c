/* The memory of the library, over malloc. Each block lies at a multiple of 64, where rows of shards are coded fastest:
   malloc gives 64 bytes more, and the byte before a block is the distance from where malloc's own block begins.
   (aligned_alloc takes several times as long as malloc.) A host with an allocator of its own links these three
   functions from an object of its own, all three, before the library. */
#include <stdbool.h>
#include <stdint.h>
#include <stdlib.h>
#include <string.h>

enum { ROW = 64 };

/* Whether there is memory, and where; where there is none, any pointer but NULL. */
struct tried {
    bool ok;
    void *at;
};

static struct tried told(void *at) {
    static char nowhere;
    return (struct tried){at != NULL, at ? at : &nowhere};
}

/* Where the block in malloc's block begins: 1 to 64 bytes after it. */
static uint8_t *inside(uint8_t *outer) {
    return outer + (ROW - (uintptr_t)outer % ROW);
}

/* New memory of size bytes; align is 1, 2, 4, 8 or 16. Each block has a byte at least. */
struct tried rattle_alloc(size_t size, size_t align) {
    if (!size) size = align;
    if (size > SIZE_MAX - ROW) return told(NULL);
    uint8_t *outer = malloc(size + ROW);
    if (!outer) return told(NULL);
    uint8_t *at = inside(outer);
    at[-1] = (uint8_t)(at - outer);
    return told(at);
}

/* The block with size bytes, of which the first `kept` are as they were; where there is no memory it is as it was. */
struct tried rattle_realloc(void *old, size_t kept, size_t size, size_t align) {
    size_t distance = ((uint8_t *)old)[-1];
    if (!size) size = align;
    if (size > SIZE_MAX - ROW) return told(NULL);
    uint8_t *outer = realloc((uint8_t *)old - distance, size + ROW);
    if (!outer) return told(NULL);
    uint8_t *at = inside(outer);
    if (at != outer + distance) memmove(at, outer + distance, kept < size ? kept : size);
    at[-1] = (uint8_t)(at - outer);
    return told(at);
}

void rattle_dealloc(void *at) {
    free((uint8_t *)at - ((uint8_t *)at)[-1]);
}
