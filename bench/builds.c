/* Times the three builds that the library for x86-64 holds: rs_encode and rs_decode of each build, in turns, by the processor time of the
   thread. As many originals as possible are lost. After `make -C c`, on a machine with AVX2:

       cc -O2 -Iinclude -o builds bench/builds.c c/out/parts/{layer,work,sizes,heap}.o c/out/parts/rs_v?.o
       ./builds 65536 25

   The arguments are the bytes of a shard and the number of turns. It prints the median times in microseconds, with quartiles. */
#include "reed_solomon_simd.h"

#include <stdio.h>
#include <stdlib.h>
#include <string.h>
#include <time.h>

#define DECLARED(level) \
    __typeof__(rs_encode) rs_encode_##level; \
    __typeof__(rs_decode) rs_decode_##level
DECLARED(v1);
DECLARED(v2);
DECLARED(v3);

enum { BUILDS = 3, MOST_TURNS = 1000 };
static __typeof__(rs_encode) *const encodes[] = {rs_encode_v1, rs_encode_v2, rs_encode_v3};
static __typeof__(rs_decode) *const decodes[] = {rs_decode_v1, rs_decode_v2, rs_decode_v3};
static const size_t counts[][2] = {{10, 4}, {32, 32}, {100, 30}};
static double encoding[BUILDS][MOST_TURNS], decoding[BUILDS][MOST_TURNS];

static void *room(size_t size) {
    void *at = aligned_alloc(64, (size + 63) / 64 * 64);
    if (!at) exit(1);
    return at;
}

static double now(void) {
    struct timespec time;
    clock_gettime(CLOCK_THREAD_CPUTIME_ID, &time);
    return (double)time.tv_sec * 1e6 + (double)time.tv_nsec / 1e3;
}

static int compared(const void *one, const void *other) {
    double a = *(const double *)one, b = *(const double *)other;
    return (a > b) - (a < b);
}

static void print(const char *call, int build, const size_t *count, double *times, int turns) {
    qsort(times, (size_t)turns, sizeof *times, compared);
    printf("%s %zu:%zu v%d %.1f (%.1f-%.1f)\n", call, count[0], count[1], build + 1, times[turns / 2], times[turns / 4], times[turns * 3 / 4]);
}

static void measure(const struct rs_tables *tables, const size_t *count, size_t size, int turns) {
    size_t k = count[0], r = count[1], lost = k < r ? k : r;
    struct rs_fault fault;
    uint8_t *originals = room(k * size), *recovery = room(r * size), *restored = room(k * size), *marks = room(k + r);
    for (size_t i = 0; i < k * size; i++) originals[i] = (uint8_t)(rand() >> 7);
    memset(marks, 1, k + r);
    memset(marks, 0, lost);
    for (int turn = 0; turn < turns; turn++) {
        for (int build = 0; build < BUILDS; build++) {
            double start = now();
            if (encodes[build](tables, k, r, size, originals, k * size, recovery, r * size, &fault)) exit(1);
            encoding[build][turn] = now() - start;
            memcpy(restored, originals, k * size);
            memset(restored, '?', lost * size);
            start = now();
            if (decodes[build](tables, k, r, size, restored, k * size, recovery, r * size, marks, k + r, &fault)) exit(1);
            decoding[build][turn] = now() - start;
            if (memcmp(restored, originals, k * size)) exit(1);
        }
    }
    for (int build = 0; build < BUILDS; build++) print("encode", build, count, encoding[build], turns);
    for (int build = 0; build < BUILDS; build++) print("decode", build, count, decoding[build], turns);
    free(originals), free(recovery), free(restored), free(marks);
}

int main(int number, char **words) {
    size_t size = number > 1 ? strtoul(words[1], NULL, 10) : 65536;
    int turns = number > 2 ? atoi(words[2]) : 25;
    struct rs_tables *tables = room(sizeof *tables);
    if (turns < 1 || turns > MOST_TURNS || rs_tables_make(tables)) return 1;
    for (size_t i = 0; i < sizeof counts / sizeof *counts; i++) measure(tables, counts[i], size, turns);
    free(tables);
    return 0;
}
