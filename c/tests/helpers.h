/* What several tests share: the tables, the end of a test that fails, memory, random numbers, and the values of a
   fault. A test defines TEST as its name before it includes this file. */
#include "reed_solomon_simd.h"

#include <stdio.h>
#include <stdlib.h>
#include <string.h>

static struct rs_tables *tables;

static inline void wrong(const char *what) {
    printf("%s: %s\n", TEST, what);
    exit(1);
}

static inline void *room(size_t size) {
    void *at = malloc(size ? size : 1);
    if (!at) wrong("no memory for the test");
    return at;
}

static inline void make_tables(void) {
    tables = (struct rs_tables *)room(sizeof *tables);
    if (rs_tables_make(tables)) wrong("no memory for the tables");
}

/* The next of a sequence of random numbers, by a shift register with 64 bits. */
static inline uint64_t drawn(uint64_t *state) {
    uint64_t x = *state;
    x ^= x << 13;
    x ^= x >> 7;
    x ^= x << 17;
    return *state = x;
}

static inline int told(const struct rs_fault *fault, uint32_t number, size_t first, size_t second, size_t third) {
    return fault->number == number && fault->first == first && fault->second == second && fault->third == third;
}

/* The least power of two that is not below the count. */
static inline size_t power(size_t count) {
    size_t power = 1;
    while (power < count) power *= 2;
    return power;
}

/* How many rows a decode has. */
static inline size_t decoder_rows(size_t original_count, size_t recovery_count) {
    size_t low = power(original_count), high = power(recovery_count);
    int is_low = low < high || (low == high && original_count > recovery_count);
    return power(is_low ? low + recovery_count : high + original_count);
}

/* How many bytes the rows of a decode take. */
static inline size_t bytes_of_rows(size_t original_count, size_t recovery_count, size_t shard_bytes) {
    size_t strip = shard_bytes < 2048 ? shard_bytes : 2048;
    return decoder_rows(original_count, recovery_count) * ((strip + 63) / 64 * 64);
}
