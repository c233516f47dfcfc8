/* The allocator of the library by itself. With the word `refused` it runs where memory is limited: it wants a refusal.
 */
#include <stdbool.h>
#include <stdint.h>
#include <stdio.h>
#include <stdlib.h>
#include <string.h>

struct tried {
    bool ok;
    void *at;
};

struct tried rattle_alloc(size_t size, size_t align);
struct tried rattle_realloc(void *old, size_t kept, size_t size, size_t align);
void rattle_dealloc(void *at);

static void wrong(const char *what) {
    printf("heap: %s\n", what);
    exit(1);
}

static uint8_t byte_at(size_t i) {
    return (uint8_t)(i * 7 + i / 256 + 3);
}

/* A new block of this size, with a byte of its own at each place. */
static uint8_t *filled(size_t size) {
    struct tried tried = rattle_alloc(size, 8);
    uint8_t *bytes = tried.at;
    if (!tried.ok || !bytes) wrong("no block");
    for (size_t i = 0; i < size; i++) bytes[i] = byte_at(i);
    return bytes;
}

/* A block that changes its size keeps its first bytes, and lies at a multiple of 64. The distances from malloc's blocks
   differ, since malloc gives `apart` bytes in between. */
static void resized(size_t from, size_t to, size_t apart) {
    uint8_t *old = filled(from);
    void *between = malloc(apart);
    struct tried tried = rattle_realloc(old, from, to, 8);
    uint8_t *bytes = tried.at;
    if (!tried.ok || !bytes) wrong("no block of another size");
    for (size_t i = 0; i < (from < to ? from : to); i++)
        if (bytes[i] != byte_at(i)) wrong("a block of another size has other bytes");
    if ((uintptr_t)bytes % 64) wrong("a block doesn't lie at a multiple of 64");
    memset(bytes, 9, to);
    rattle_dealloc(bytes);
    free(between);
}

/* Requests that can't be granted are refused, with a pointer that isn't NULL, and leave the old block as it was. */
static void refusals(size_t size) {
    uint8_t *old = filled(1000);
    struct tried tried = rattle_alloc(size, 8);
    if (tried.ok || !tried.at) wrong("a new block of too many bytes isn't refused");
    tried = rattle_realloc(old, 1000, size, 8);
    if (tried.ok || !tried.at) wrong("a longer block of too many bytes isn't refused");
    for (size_t i = 0; i < 1000; i++)
        if (old[i] != byte_at(i)) wrong("a refused request has changed the block");
    rattle_dealloc(old);
}

int main(int count, char **words) {
    static const size_t sizes[] = {1, 16, 64, 1000, 1023, 1024, 1025, 4096, 100000, 1000000};
    struct tried empty = rattle_alloc(0, 1), other = rattle_alloc(0, 16);
    if (!empty.ok || !other.ok || !empty.at || !other.at || empty.at == other.at)
        wrong("a block of no byte has no place of its own");
    rattle_dealloc(empty.at);
    rattle_dealloc(other.at);
    for (size_t i = 0; i < sizeof sizes / sizeof *sizes; i++)
        for (size_t n = 0; n < sizeof sizes / sizeof *sizes; n++)
            for (size_t apart = 16; apart <= 64; apart += 16) resized(sizes[i], sizes[n], apart);
    refusals(SIZE_MAX);
    refusals(SIZE_MAX - 63);
    refusals(SIZE_MAX / 2);
    if (count == 2 && !strcmp(words[1], "refused")) refusals((size_t)1 << 30);
    puts(count == 2 ? "heap: a request that the system refuses is refused" : "heap: blocks keep their bytes");
    return 0;
}
