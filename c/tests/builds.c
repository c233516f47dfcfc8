/* The builds that one library for x86-64 holds, side by side: the same tables, and the same bytes of encodes and
   decodes, each over the tables that another build made. It needs a processor that can run all of them. */
#include "reed_solomon_simd.h"

#include <stdio.h>
#include <stdlib.h>
#include <string.h>

#define DECLARED(level)                                \
    __typeof__(rs_tables_make) rs_tables_make_##level; \
    __typeof__(rs_encode) rs_encode_##level;           \
    __typeof__(rs_decode) rs_decode_##level
DECLARED(v1);
DECLARED(v2);
DECLARED(v3);

enum { BUILDS = 3, MOST = 24, LONGEST = 4200 };
static __typeof__(rs_tables_make) *const makes[] = {rs_tables_make_v1, rs_tables_make_v2, rs_tables_make_v3};
static __typeof__(rs_encode) *const encodes[] = {rs_encode_v1, rs_encode_v2, rs_encode_v3};
static __typeof__(rs_decode) *const decodes[] = {rs_decode_v1, rs_decode_v2, rs_decode_v3};
static struct rs_tables *tables[BUILDS];
static uint8_t originals[MOST * LONGEST], recovery[BUILDS][MOST * LONGEST], restored[MOST * LONGEST], marks[2 * MOST];

static void wrong(const char *what, int build) {
    printf("builds: %s, build v%d\n", what, build + 1);
    exit(1);
}

static unsigned drawn(unsigned below) {
    static uint64_t state = 88172645463325252u;
    state = state * 6364136223846793005u + 1442695040888963407u;
    return (unsigned)(state >> 33) % below;
}

static void message(size_t k, size_t r, size_t size) {
    size_t lost = k < r ? k : r;
    for (size_t i = 0; i < k * size; i++) originals[i] = (uint8_t)drawn(256);
    memset(marks, 1, k + r);
    memset(marks, 0, lost);
    for (int build = 0; build < BUILDS; build++) {
        const struct rs_tables *others = tables[(build + 1) % BUILDS];
        struct rs_fault fault;
        if (encodes[build](others, k, r, size, originals, k * size, recovery[build], r * size, &fault))
            wrong("no encode", build);
        if (memcmp(recovery[build], recovery[0], r * size)) wrong("other recovery shards", build);
        memcpy(restored, originals, k * size);
        memset(restored, '?', lost * size);
        if (decodes[build](others, k, r, size, restored, k * size, recovery[build], r * size, marks, k + r, &fault))
            wrong("no decode", build);
        if (memcmp(restored, originals, k * size)) wrong("other originals", build);
    }
}

int main(void) {
    for (int build = 0; build < BUILDS; build++) {
        tables[build] = calloc(1, sizeof **tables);
        if (!tables[build] || makes[build](tables[build])) wrong("no tables", build);
        if (memcmp(tables[build], tables[0], sizeof **tables)) wrong("other tables", build);
    }
    for (int n = 0; n < 300; n++) message(1 + drawn(MOST), 1 + drawn(MOST), 2 + 2 * drawn(n % 10 ? 100 : LONGEST / 2));
    for (int build = 0; build < BUILDS; build++) free(tables[build]);
    puts("builds: the same tables and the same bytes");
    return 0;
}
