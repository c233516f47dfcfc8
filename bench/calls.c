/* Times calls of the library for C in one thread: an encode, a decode of as many originals as possible and of one, a
   verification with all shards, and an update of one original. It prints a line for each call and shape: the build, the
   numbers of originals and of recovery shards, the bytes of a shard, the call, and nanoseconds, the median of 15 runs, each
   of at least 3 ms. bench/calls runs it several times. */
#include "message.h"

#include <stdio.h>
#include <time.h>

enum { RUNS = 15 };
static const size_t shapes[][3] = {{1, 1, 64},       {10, 4, 64},     {10, 4, 4096},      {10, 4, 65536},
                                   {32, 32, 1024}, {100, 30, 65536}, {128, 128, 1024}, {1000, 200, 1024}};
static struct rs_tables *tables;

static void encode(void) {
    check(rs_encode_shards(tables, m.k, m.r, m.from, m.k, m.to, m.r, NULL));
}

static void decode(void) {
    check(rs_decode_shards(tables, m.k, m.r, m.own + m.lost, m.k - m.lost, m.other, m.lost, m.restored, m.lost, NULL));
}

static void verify(void) {
    check(rs_verify(tables, m.k, m.r, m.own, m.k, m.other, m.r, NULL));
}

/* An update, and the update that takes it back. */
static void update(void) {
    check(rs_update(tables, m.k, m.r, 0, m.originals, m.size, m.changed, m.size, m.to, m.r, NULL));
    check(rs_update(tables, m.k, m.r, 0, m.changed, m.size, m.originals, m.size, m.to, m.r, NULL));
}

static double now(void) {
    struct timespec time;
    clock_gettime(CLOCK_THREAD_CPUTIME_ID, &time);
    return (double)time.tv_sec * 1e6 + (double)time.tv_nsec / 1e3;
}

/* The microseconds of one call, in a run of at least 3 ms. */
static double timed(void (*call)(void)) {
    double began = now(), ended = began;
    size_t calls = 0;
    for (; ended - began < 3000; ended = now())
        for (size_t i = 0; i <= calls / 8; i++, calls++) call();
    return (ended - began) / (double)calls;
}

static double median(void (*call)(void)) {
    double runs[RUNS];
    timed(call);
    for (size_t i = 0; i < RUNS; i++) runs[i] = timed(call);
    qsort(runs, RUNS, sizeof *runs, compare);
    return runs[RUNS / 2];
}

static void show(const char *call, double microseconds) {
    printf("%s,%zu,%zu,%zu,%s,%.1f\n", rs_build_name(), m.k, m.r, m.size, call, microseconds * 1000);
}

int main(void) {
    tables = room(sizeof *tables);
    check(rs_tables_make(tables));
    for (size_t i = 0; i < sizeof shapes / sizeof *shapes; i++) {
        set_up(shapes[i][0], shapes[i][1], shapes[i][2]);
        encode();
        show("encode", median(encode));
        m.lost = m.k < m.r ? m.k : m.r;
        show("decode", median(decode));
        m.lost = 1;
        show("lost1", median(decode));
        show("verify", median(verify));
        show("update", median(update) / 2);
        clean_up();
    }
    return 0;
}
