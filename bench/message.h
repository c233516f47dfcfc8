/* A message, its recovery shards, and what calls from C are passed, for the programs that time them. */
#include "reed_solomon_simd.h"

#include <stdlib.h>
#include <string.h>

/* Before a decode, the first `lost` originals are lost, and as many recovery shards are there. */
static struct {
    size_t k, r, size, lost;
    uint8_t *originals, *recovery, *changed, *written;
    struct rs_bytes *from;
    struct rs_shard *own, *other;
    struct rs_room *to, *restored;
} m;

static void check(uint32_t answer) {
    if (answer) exit(1);
}

static void *room(size_t size) {
    void *at = aligned_alloc(64, (size + 63) / 64 * 64);
    if (!at) exit(1);
    return memset(at, 1, size);
}

/* Draws the originals. The recovery shards are not encoded. */
static void set_up(size_t k, size_t r, size_t size) {
    m.k = k, m.r = r, m.size = size;
    m.originals = room(k * size), m.recovery = room(r * size), m.written = room(k * size), m.changed = room(size);
    m.from = room(k * sizeof *m.from), m.own = room(k * sizeof *m.own), m.restored = room(k * sizeof *m.restored);
    m.other = room(r * sizeof *m.other), m.to = room(r * sizeof *m.to);
    for (size_t i = 0; i < k * size; i++) m.originals[i] = (uint8_t)(rand() >> 8);
    for (size_t i = 0; i < k; i++) {
        m.from[i] = (struct rs_bytes){m.originals + i * size, size};
        m.own[i] = (struct rs_shard){i, m.originals + i * size, size};
        m.restored[i] = (struct rs_room){m.written + i * size, size};
    }
    for (size_t i = 0; i < r; i++) {
        m.other[i] = (struct rs_shard){i, m.recovery + i * size, size};
        m.to[i] = (struct rs_room){m.recovery + i * size, size};
    }
}

static void clean_up(void) {
    void *rooms[] = {m.originals, m.recovery, m.written, m.changed, m.from, m.own, m.restored, m.other, m.to};
    for (size_t i = 0; i < sizeof rooms / sizeof *rooms; i++) free(rooms[i]);
}

/* Orders numbers for qsort. */
static int compare(const void *one, const void *other) {
    double a = *(const double *)one, b = *(const double *)other;
    return (a > b) - (a < b);
}
