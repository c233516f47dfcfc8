/* Counts by sizes that users have, over buffers and over arrays: encodes, loses as many originals as can be lost,
   decodes, compares. What a case takes in all stays below 512 MiB. */
#include "reed_solomon_simd.h"

#include <stdio.h>
#include <stdlib.h>
#include <string.h>

static const size_t counts[][2] = {{1, 1}, {2, 3}, {10, 4}, {33, 31}, {100, 30}, {1000, 200}, {3000, 5000}};
static const size_t sizes[] = {2, 62, 64, 66, 1024, 4098, 65536, 1048576};

static struct rs_tables *tables;

static void wrong(const char *what, size_t k, size_t r, size_t size) {
    printf("sweep: %s at %zu:%zu with %zu bytes\n", what, k, r, size);
    exit(1);
}

/* A message: its originals, what an encode made of them, and what a decode is to restore into. */
struct message {
    size_t k, r, size, lost;
    uint8_t *originals, *recovery, *copy, *other;
};

static size_t power(size_t n) {
    size_t power = 1;
    while (power < n) power *= 2;
    return power;
}

/* What the buffers take, with the rows of a decode. */
static size_t taken(size_t k, size_t r, size_t size) {
    size_t low = power(k), high = power(r), chunk = low < high ? low : high, rows = power(chunk + (low < high ? r : k));
    return 2 * (k + r) * size + rows * ((size + 63) / 64 * 64);
}

/* Some bytes, most of which differ from their neighbours and from the same place of other shards. */
static void draw(uint8_t *bytes, size_t length, uint64_t state) {
    for (size_t i = 0; i < length; i++) {
        if (i % 8 == 0) state = state * 6364136223846793005u + 1442695040888963407u;
        bytes[i] = (uint8_t)(state >> (8 * (i % 8)));
    }
}

static void over_buffers(struct message *m) {
    size_t k = m->k, r = m->r, size = m->size;
    struct rs_fault fault;
    uint8_t *marks = malloc(k + r);
    if (!marks) wrong("no memory for the test", k, r, size);
    if (rs_encode(tables, k, r, size, m->originals, k * size, m->recovery, r * size, &fault))
        wrong("rs_encode fails", k, r, size);
    memcpy(m->copy, m->originals, k * size);
    memset(marks, 1, k + r);
    for (size_t i = 0; i < m->lost; i++) {
        size_t index = k - 1 - i * (k / m->lost);
        marks[index] = 0;
        memset(m->copy + index * size, '?', size);
    }
    /* As many recovery shards are lost as can be: the first ones. */
    for (size_t i = 0; i < r - m->lost; i++) marks[k + i] = 0;
    if (rs_decode(tables, k, r, size, m->copy, k * size, m->recovery, r * size, marks, k + r, &fault))
        wrong("rs_decode fails", k, r, size);
    if (memcmp(m->copy, m->originals, k * size)) wrong("rs_decode restores other bytes", k, r, size);
    free(marks);
}

static void over_arrays(struct message *m) {
    size_t k = m->k, r = m->r, size = m->size, own = 0;
    struct rs_bytes *from = malloc(k * sizeof *from);
    struct rs_room *rooms = malloc((r > k ? r : k) * sizeof *rooms);
    struct rs_shard *given = malloc(k * sizeof *given), *other = malloc(r * sizeof *other);
    struct rs_fault fault;
    if (!from || !rooms || !given || !other) wrong("no memory for the test", k, r, size);
    for (size_t i = 0; i < k; i++) from[i].bytes = m->originals + i * size, from[i].length = size;
    for (size_t i = 0; i < r; i++) rooms[i].bytes = m->other + i * size, rooms[i].length = size;
    if (rs_encode_shards(tables, k, r, from, k, rooms, r, &fault)) wrong("rs_encode_shards fails", k, r, size);
    if (memcmp(m->other, m->recovery, r * size)) wrong("rs_encode_shards and rs_encode differ", k, r, size);
    /* The first originals are lost, and the last recovery shards. */
    for (size_t i = m->lost; i < k; i++, own++)
        given[own].index = i, given[own].bytes = m->originals + i * size, given[own].length = size;
    for (size_t i = 0; i < m->lost; i++) {
        other[i].index = m->lost - 1 - i;
        other[i].bytes = m->other + other[i].index * size;
        other[i].length = size;
        rooms[i].bytes = memset(m->copy + i * size, '?', size);
        rooms[i].length = size;
    }
    if (rs_decode_shards(tables, k, r, given, own, other, m->lost, rooms, m->lost, &fault))
        wrong("rs_decode_shards fails", k, r, size);
    if (memcmp(m->copy, m->originals, m->lost * size)) wrong("rs_decode_shards restores other bytes", k, r, size);
    free(from);
    free(rooms);
    free(given);
    free(other);
}

static void swept(size_t k, size_t r, size_t size) {
    struct message m =
        {k, r, size, k < r ? k : r, malloc(k * size), malloc(r * size), malloc(k * size), malloc(r * size)};
    if (!m.originals || !m.recovery || !m.copy || !m.other) wrong("no memory for the test", k, r, size);
    draw(m.originals, k * size, k * 1000003 + size);
    over_buffers(&m);
    over_arrays(&m);
    free(m.originals);
    free(m.recovery);
    free(m.copy);
    free(m.other);
}

int main(void) {
    unsigned cases = 0;
    tables = malloc(sizeof *tables);
    if (!tables || rs_tables_make(tables)) wrong("no memory for the tables", 0, 0, 0);
    for (size_t i = 0; i < sizeof counts / sizeof *counts; i++)
        for (size_t n = 0; n < sizeof sizes / sizeof *sizes; n++) {
            if (taken(counts[i][0], counts[i][1], sizes[n]) > (size_t)512 << 20) continue;
            swept(counts[i][0], counts[i][1], sizes[n]);
            cases++;
        }
    if (cases != 52) wrong("another number of counts and sizes", 0, 0, cases);
    printf("sweep: %u counts and sizes\n", cases);
    free(tables);
    return 0;
}
