/* Times the calls from C of two states of the library in turn, in one thread of one process: an encode, a decode of one
   original and of as many as possible, a verification with all shards, and an update of one original. The arguments are
   the shared libraries of the two states. A row has the call, the counts, the size, the build, the medians in
   nanoseconds, the median of the ratios of the turns, their quartiles, and the number of turns. bench/gains runs it
   several times, because the place of its memory can make all turns of a process slower. */
#define _GNU_SOURCE
#include "message.h"

#include <alloca.h>
#include <dlfcn.h>
#include <stdio.h>
#include <time.h>

enum { TURNS = 9 };
static const size_t counts[][2] = {{2, 2}, {4, 2}, {10, 4}, {20, 8}, {32, 32}, {100, 30}, {128, 128}, {1000, 200}};
static const size_t sizes[] = {64, 1024, 4096, 65536, 1 << 20};

/* The most seconds for a row. A slow row has fewer turns. */
static const double most = 5;

/* A state of the library, and its tables. */
struct state {
    __typeof__(rs_encode_shards) *encode;
    __typeof__(rs_decode_shards) *decode;
    __typeof__(rs_verify) *verify;
    __typeof__(rs_update) *update;
    const char *(*build_name)(void);
    struct rs_tables *tables;
};

static void encode(const struct state *s) {
    check(s->encode(s->tables, m.k, m.r, m.from, m.k, m.to, m.r, NULL));
}

static void decode(const struct state *s) {
    check(s->decode(s->tables, m.k, m.r, m.own + m.lost, m.k - m.lost, m.other, m.lost, m.restored, m.lost, NULL));
}

static void verify(const struct state *s) {
    check(s->verify(s->tables, m.k, m.r, m.own, m.k, m.other, m.r, NULL));
}

/* An update, and the update that takes it back. */
static void update(const struct state *s) {
    check(s->update(s->tables, m.k, m.r, 0, m.originals, m.size, m.changed, m.size, m.to, m.r, NULL));
    check(s->update(s->tables, m.k, m.r, 0, m.changed, m.size, m.originals, m.size, m.to, m.r, NULL));
}

static double now(clockid_t clock) {
    struct timespec time;
    clock_gettime(clock, &time);
    return (double)time.tv_sec * 1e9 + (double)time.tv_nsec;
}

/* The nanoseconds of one call, in a run of at least 4 ms. The stack begins at another address in each run, since the
   time of some calls depends on it. */
static __attribute__((noinline)) double timed(void (*call)(const struct state *), const struct state *s) {
    volatile char *shift = alloca((size_t)(rand() >> 4) % 8192 + 1);
    *shift = 0;
    double began = now(CLOCK_THREAD_CPUTIME_ID), ended = began;
    size_t calls = 0;
    for (; ended - began < 4e6; ended = now(CLOCK_THREAD_CPUTIME_ID))
        for (size_t i = 0; i <= calls / 8; i++, calls++) call(s);
    return (ended - began) / (double)calls;
}

/* The value at a quarter of the sorted list. */
static double quartile(double *values, size_t number, size_t quarters) {
    qsort(values, number, sizeof *values, compare);
    return values[(number - 1) * quarters / 4];
}

/* Times a call of both states in turn, and prints a row. */
static void compared(const char *name, void (*call)(const struct state *), size_t calls, const struct state states[2]) {
    double times[2][TURNS], ratios[TURNS], began = now(CLOCK_MONOTONIC);
    size_t turns = 0;
    call(&states[0]), call(&states[1]);
    while (turns < TURNS && (turns < 3 || now(CLOCK_MONOTONIC) - began < most * 1e9)) {
        size_t first = turns % 2;
        times[first][turns] = timed(call, &states[first]);
        times[1 - first][turns] = timed(call, &states[1 - first]);
        ratios[turns] = times[0][turns] / times[1][turns];
        turns++;
    }
    double middle = quartile(ratios, turns, 2);
    printf("%s,%zu,%zu,%zu,%s,%.0f,%.0f,%.3f,%.3f,%.3f,%zu\n", name, m.k, m.r, m.size, states[1].build_name(),
           quartile(times[0], turns, 2) / (double)calls, quartile(times[1], turns, 2) / (double)calls, middle,
           quartile(ratios, turns, 1), quartile(ratios, turns, 3), turns);
    fflush(stdout);
}

static void of_message(const struct state states[2], size_t k, size_t r, size_t size) {
    set_up(k, r, size);
    encode(&states[0]);
    compared("encode", encode, 1, states);
    m.lost = 1;
    compared("lost1", decode, 1, states);
    m.lost = k < r ? k : r;
    compared("decode", decode, 1, states);
    compared("verify", verify, 1, states);
    compared("update", update, 2, states);
    clean_up();
}

static void *found(void *library, const char *name) {
    void *at = dlsym(library, name);
    if (!at) exit(1);
    return at;
}

static struct state opened(const char *file) {
    void *library = dlmopen(LM_ID_NEWLM, file, RTLD_NOW);
    if (!library) fprintf(stderr, "%s\n", dlerror()), exit(1);
    __typeof__(rs_tables_bytes) *bytes = found(library, "rs_tables_bytes");
    __typeof__(rs_tables_make) *make = found(library, "rs_tables_make");
    struct state s = {found(library, "rs_encode_shards"), found(library, "rs_decode_shards"),
                      found(library, "rs_verify"),        found(library, "rs_update"),
                      found(library, "rs_build_name"),    room(bytes())};
    check(make(s.tables));
    return s;
}

int main(int number, char **words) {
    if (number != 3) return 2;
    const struct state states[2] = {opened(words[1]), opened(words[2])};
    puts("call,originals,recovery,bytes,build,nanoseconds_before,nanoseconds,ratio,lower_quartile,upper_quartile,"
         "turns");
    for (size_t i = 0; i < sizeof counts / sizeof *counts; i++)
        for (size_t n = 0; n < sizeof sizes / sizeof *sizes; n++)
            of_message(states, counts[i][0], counts[i][1], sizes[n]);
    return 0;
}
