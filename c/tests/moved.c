/* The allocator of the library over a malloc whose blocks move at each change of their size, and have guarded ends.
   This file includes the allocator, so that it calls the functions below instead of those of the C library. */
#include <stdint.h>
#include <stdio.h>
#include <stdlib.h>
#include <string.h>

enum { GUARD = 128, GUARDED = 0xa5 };

static void wrong(const char *what) {
    printf("moved: %s\n", what);
    exit(1);
}

/* A block with GUARD bytes before it, which hold its size and the distance from its memory, and GUARD bytes after it.
   The blocks lie at changing distances from a multiple of 64. */
static void *guarded(size_t size) {
    static size_t number;
    size_t distance = GUARD + number++ % 4 * 16;
    uint8_t *memory = malloc(distance + size + GUARD), *block = memory + distance;
    if (!memory) wrong("no memory for a test");
    memcpy(block - 16, &size, sizeof size);
    memcpy(block - 8, &distance, sizeof distance);
    memset(block + size, GUARDED, GUARD);
    return block;
}

static size_t size_of(const uint8_t *block) {
    size_t size;
    memcpy(&size, block - 16, sizeof size);
    return size;
}

static void ended(void *at) {
    uint8_t *block = at;
    size_t size = size_of(block), distance;
    memcpy(&distance, block - 8, sizeof distance);
    for (size_t i = 0; i < GUARD; i++)
        if (block[size + i] != GUARDED) wrong("bytes are written past the end of a block");
    free(block - distance);
}

static void *moved(void *old, size_t size) {
    void *block = guarded(size);
    memcpy(block, old, size_of(old) < size ? size_of(old) : size);
    ended(old);
    return block;
}

#define malloc guarded
#define realloc moved
#define free ended
#include "../heap.c"

int main(void) {
    static const size_t sizes[] = {1, 2, 63, 64, 65, 100, 1000, 4096};
    enum { NUMBER = sizeof sizes / sizeof *sizes };
    for (size_t n = 0; n < 4 * NUMBER * NUMBER; n++) {
        size_t from = sizes[n / NUMBER % NUMBER], to = sizes[n % NUMBER];
        uint8_t *bytes = rattle_alloc(from, 8).at;
        for (size_t i = 0; i < from; i++) bytes[i] = (uint8_t)(i * 7 + 3);
        bytes = rattle_realloc(bytes, from, to, 8).at;
        for (size_t i = 0; i < from && i < to; i++)
            if (bytes[i] != (uint8_t)(i * 7 + 3)) wrong("a block of another size has other bytes");
        if ((uintptr_t)bytes % 64) wrong("a block doesn't lie at a multiple of 64");
        rattle_dealloc(bytes);
    }
    puts("moved: blocks that move keep their bytes, and nothing is written past their ends");
    return 0;
}
