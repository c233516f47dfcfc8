/* Measures how many bytes of its stack each call of the library for C uses, in a thread whose stack was filled with a pattern before. After
   c/build:

       cc -O1 -Iinclude -o stack bench/stack.c c/out/libreed_solomon_simd.a -lpthread
       ./stack 4096 10:4 100:30 1000:200

   The arguments are the bytes of a shard, and numbers of originals and of recovery shards. It prints a line for each call: the bytes beyond
   those of a thread that does nothing. Each call runs once before it is measured, so that the loader has looked up all functions. */
#define _GNU_SOURCE
#include "reed_solomon_simd.h"

#include <pthread.h>
#include <stdio.h>
#include <stdlib.h>
#include <string.h>
#include <sys/mman.h>

enum { STACK = 1 << 20, PATTERN = 0xA5 };

static struct rs_tables *tables;
static size_t k, r, size;
static uint8_t *originals, *recovery, *rooms, *marks;
static struct rs_bytes *whole;
static struct rs_shard *own, *other;
static struct rs_room *coded, *restored, *rebuilt;
static struct rs_wanted *wanted, *others;
static size_t lost, left; /* the lost originals, and the recovery shards that are left */
static uint32_t answer;
static struct rs_fault fault;

static void *nothing(void *unused) { return unused; }
static void *encode(void *unused) {
    answer = rs_encode(tables, k, r, size, originals, k * size, recovery, r * size, &fault);
    return unused;
}
static void *encode_shards(void *unused) {
    answer = rs_encode_shards(tables, k, r, whole, k, coded, r, &fault);
    return unused;
}
static void *decode(void *unused) {
    answer = rs_decode(tables, k, r, size, originals, k * size, recovery, r * size, marks, k + r, &fault);
    return unused;
}
static void *decode_shards(void *unused) {
    answer = rs_decode_shards(tables, k, r, own + lost, k - lost, other, left, restored, lost, &fault);
    return unused;
}
static void *verify(void *unused) {
    answer = rs_verify(tables, k, r, own + lost, k - lost, other, left, &fault);
    return unused;
}
static void *reconstruct(void *unused) {
    answer = rs_reconstruct(tables, k, r, own + lost, k - lost, other, left, wanted, lost, restored, lost, &fault);
    return unused;
}
static void *reconstruct_recovery(void *unused) {
    answer = rs_reconstruct(tables, k, r, own + lost, k - lost, other, left, others + left, r - left, rebuilt, r - left, &fault);
    return unused;
}
static void *update(void *unused) {
    answer = rs_update(tables, k, r, 0, originals, size, originals, size, coded, r, &fault);
    return unused;
}

/* Returns how many bytes of its stack a thread with this body has changed. */
static size_t used(void *(*body)(void *)) {
    uint8_t *stack = mmap(NULL, STACK, PROT_READ | PROT_WRITE, MAP_PRIVATE | MAP_ANONYMOUS, -1, 0);
    size_t same = 0;
    pthread_attr_t attributes;
    pthread_t thread;
    if (stack == MAP_FAILED) exit(1);
    memset(stack, PATTERN, STACK);
    pthread_attr_init(&attributes);
    if (pthread_attr_setstack(&attributes, stack, STACK) || pthread_create(&thread, &attributes, body, NULL)) exit(1);
    pthread_join(thread, NULL);
    while (same < STACK && stack[same] == PATTERN) same++;
    munmap(stack, STACK);
    return STACK - same;
}

static void row(const char *name, void *(*body)(void *)) {
    used(body);
    printf("%zu:%zu, %zu lost, %zu recovery shards left: %s uses %zu bytes\n", k, r, lost, left, name, used(body) - used(nothing));
    if (answer) exit((fprintf(stderr, "%s returns %u\n", name, answer), 1));
}

/* Measures the calls that get received shards. */
static void received(size_t lost_now, size_t left_now) {
    lost = lost_now, left = left_now;
    for (size_t i = 0; i < k + r; i++) marks[i] = i < k ? i >= lost : i - k < left;
    row("rs_decode", decode);
    row("rs_decode_shards", decode_shards);
    row("rs_verify", verify);
    row("rs_reconstruct of originals", reconstruct);
    row("rs_reconstruct of recovery shards", reconstruct_recovery);
}

static void counts(const char *text) {
    if (sscanf(text, "%zu:%zu", &k, &r) != 2) exit(2);
    originals = calloc(k, size), recovery = calloc(r, size), rooms = calloc(k, size), marks = calloc(k + r, 1);
    whole = calloc(k, sizeof *whole), own = calloc(k, sizeof *own), other = calloc(r, sizeof *other);
    coded = calloc(r, sizeof *coded), restored = calloc(k, sizeof *restored), wanted = calloc(k, sizeof *wanted);
    for (size_t i = 0; i < k * size; i++) originals[i] = (uint8_t)(7 * i + i / 253);
    for (size_t i = 0; i < k; i++) {
        whole[i] = (struct rs_bytes){originals + i * size, size};
        own[i] = (struct rs_shard){i, originals + i * size, size};
        restored[i] = (struct rs_room){rooms + i * size, size};
        wanted[i] = (struct rs_wanted){RS_ORIGINAL, i};
    }
    others = calloc(r, sizeof *others), rebuilt = calloc(r, sizeof *rebuilt);
    for (size_t i = 0; i < r; i++) {
        other[i] = (struct rs_shard){i, recovery + i * size, size};
        coded[i] = (struct rs_room){recovery + i * size, size};
        others[i] = (struct rs_wanted){RS_RECOVERY, i};
        rebuilt[i] = (struct rs_room){calloc(size, 1), size};
    }
    row("rs_encode", encode);
    row("rs_encode_shards", encode_shards);
    row("rs_update", update);
    received(0, 0);
    received(1, 1);
    received(1, r);
    /* Four sums at a time, and for many counts sums of syndromes. */
    for (size_t n = 4; n <= 8; n += 4)
        if (n <= k && n <= r) received(n, n);
    if (8 <= k && 8 < r) received(8, 9);
    received(k < r ? k : r, k < r ? k : r);
}

int main(int words, char **word) {
    tables = calloc(1, sizeof *tables);
    if (words < 3 || !tables || rs_tables_make(tables)) return 2;
    size = strtoul(word[1], NULL, 10);
    for (int i = 2; i < words; i++) counts(word[i]);
    return 0;
}
