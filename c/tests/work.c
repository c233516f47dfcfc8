/* The calls with work memory, over the library. For many counts and sizes, each call succeeds with as many bytes as
   rs_work_bytes returns, at any address. It requests nothing from malloc, writes nothing outside the work memory and
   its results, and makes the same bytes as the call without work memory. With one byte less than it needs, it fails,
   and writes nothing but the fault. With the word `few` the counts are small. */
#define _DEFAULT_SOURCE
#include "counted.h"
#define TEST "work"
#include "helpers.h"

#include "guarded.h"

#include <pthread.h>

enum { ENCODE, ENCODE_SHARDS, DECODE, DECODE_SHARDS, DECODE_SURPLUS, DECODE_SHARDS_SURPLUS, CALLS };
static const char *const names[] = {"rs_encode",        "rs_encode_shards",       "rs_decode",
                                    "rs_decode_shards", "rs_decode with surplus", "rs_decode_shards with surplus"};

/* A message, its recovery shards, and what the calls write: recovery shards or originals. The first originals are lost,
   and the last recovery shards are there: as many as are lost, and one more in a call with surplus. */
struct message {
    size_t k, r, size;
    uint8_t *originals, *recovery, *written, *before, *marks;
    struct rs_bytes *from;
    struct rs_shard *own, *other;
    struct rs_room *rooms;
};

static size_t least(size_t one, size_t other) {
    return one < other ? one : other;
}

static int encodes(int call) {
    return call <= ENCODE_SHARDS;
}

static int has_surplus(int call) {
    return call >= DECODE_SURPLUS;
}

/* How many originals are lost before a call. */
static size_t lost(const struct message *m, int call) {
    return has_surplus(call) ? least(m->k, m->r - 1) : least(m->k, m->r);
}

/* How many bytes a call can write to. */
static size_t written_bytes(const struct message *m, int call) {
    return (encodes(call) ? m->r : m->k) * m->size;
}

static struct message made(size_t k, size_t r, size_t size) {
    size_t most = (k > r ? k : r) * size;
    struct message m = {k,
                        r,
                        size,
                        room(k * size),
                        room(r * size),
                        room(most),
                        room(most),
                        room(k + r),
                        room(k * sizeof *m.from),
                        room(k * sizeof *m.own),
                        room(r * sizeof *m.other),
                        room((k + r) * sizeof *m.rooms)};
    uint64_t state = 88172645463325252u + k + 7 * r + 49 * size;
    for (size_t i = 0; i < k * size; i++) {
        state = state * 6364136223846793005u + 1442695040888963407u;
        m.originals[i] = (uint8_t)(state >> 56);
    }
    for (size_t i = 0; i < k; i++) m.from[i].bytes = m.originals + i * size, m.from[i].length = size;
    if (rs_encode(tables, k, r, size, m.originals, k * size, m.recovery, r * size, NULL)) wrong("an encode fails");
    return m;
}

/* Sets the message up for a call: results are filled with '?', and shards are lost. */
static void set_up(struct message *m, int call) {
    size_t gone = lost(m, call), others = gone + (size_t)has_surplus(call), rooms = encodes(call) ? m->r : gone;
    memset(m->written, '?', written_bytes(m, call));
    if (!encodes(call)) memcpy(m->written + gone * m->size, m->originals + gone * m->size, (m->k - gone) * m->size);
    memset(m->marks, 0, m->k + m->r);
    memset(m->marks + gone, 1, m->k - gone);
    memset(m->marks + m->k + m->r - others, 1, others);
    for (size_t i = gone; i < m->k; i++)
        m->own[i - gone].index = i, m->own[i - gone].bytes = m->from[i].bytes, m->own[i - gone].length = m->size;
    for (size_t i = 0; i < others; i++) {
        struct rs_shard shard = {m->r - 1 - i, m->recovery + (m->r - 1 - i) * m->size, m->size};
        m->other[i] = shard;
    }
    for (size_t i = 0; i < rooms; i++) m->rooms[i].bytes = m->written + i * m->size, m->rooms[i].length = m->size;
    memcpy(m->before, m->written, written_bytes(m, call));
}

static uint32_t called(struct message *m, int call, void *work, size_t length, struct rs_fault *fault) {
    size_t k = m->k, r = m->r, size = m->size, gone = lost(m, call), others = gone + (size_t)has_surplus(call);
    set_up(m, call);
    if (call == ENCODE)
        return rs_encode_with_work(tables, k, r, size, m->originals, k * size, m->written, r * size, work, length,
                                   fault);
    if (call == ENCODE_SHARDS)
        return rs_encode_shards_with_work(tables, k, r, m->from, k, m->rooms, r, work, length, fault);
    if (call == DECODE || call == DECODE_SURPLUS)
        return rs_decode_with_work(tables, k, r, size, m->written, k * size, m->recovery, r * size, m->marks, k + r,
                                   work, length, fault);
    return rs_decode_shards_with_work(tables, k, r, m->own, k - gone, m->other, others, m->rooms, gone, work, length,
                                      fault);
}

/* Makes a call. Returns whether it succeeds. It requests nothing from malloc, and a call that fails has written nothing
   but the fault. */
static int succeeds(struct message *m, int call, void *work, size_t length) {
    struct rs_fault fault = {99, 99, 99, 99};
    const uint8_t *wanted = encodes(call) ? m->recovery : m->originals;
    long before = requests;
    uint32_t answer = called(m, call, work, length, &fault);
    if (requests != before) wrong("a call with work memory requests memory from malloc");
    if (answer != fault.number || fault.first || fault.second || fault.third) wrong("another fault");
    if (answer && answer != RS_OUT_OF_MEMORY) wrong("another answer");
    if (memcmp(m->written, answer ? m->before : wanted, written_bytes(m, call)))
        wrong(answer ? "a call that fails has written" : "other bytes");
    return !answer;
}

/* The least number of bytes with which a call succeeds, if the work memory begins one byte after a multiple of 64.
   `enough` bytes do. */
static size_t needed(struct message *m, int call, size_t enough) {
    unsigned char *work = guarded(1, enough);
    size_t few = 0, many = enough;
    if (!succeeds(m, call, work, enough)) wrong("rs_work_bytes is too small");
    check_guards(work, enough);
    if (succeeds(m, call, NULL, 0)) wrong("a call without memory succeeds");
    while (many - few > 1) {
        size_t middle = few + (many - few) / 2;
        if (succeeds(m, call, work, middle)) many = middle;
        else few = middle;
    }
    if (succeeds(m, call, work, many - 1)) wrong("a call with less than it needs succeeds");
    return many;
}

/* Whether a decode of shards works over rows: it requests them, and c/heap.c adds 64 bytes. It sums few shards without
   rows, and needs less. Which of both it does depends on the counts alone. Rows of 4096 bytes or less could lie on the
   stack, so the shards are longer then. */
static int has_rows(const struct message *of, int call) {
    struct message m = made(of->k, of->r, bytes_of_rows(of->k, of->r, of->size) > 4096 ? of->size : 2048);
    size_t gone = lost(&m, call);
    set_up(&m, call);
    watched = bytes_of_rows(m.k, m.r, m.size) + 64;
    requests_watched = 0;
    if (rs_decode_shards(tables, m.k, m.r, m.own, m.k - gone, m.other, gone + (size_t)has_surplus(call), m.rooms, gone,
                         NULL))
        wrong("a decode without work memory fails");
    return requests_watched > 0;
}

/* How many rows an encode needs if it reads originals where they are: those of one block, or of two if a further block
   has more than four rows. Blocks have as many rows as there are recovery shards, rounded up to a power of two. At the
   low rate, with a tail, for few bytes in long blocks, and in the build for x86-64, an encode reads no originals, and 0
   is returned. */
static size_t rows_to_read(size_t k, size_t r, size_t size) {
    size_t block = 1, others = 1;
    while (block < r) block *= 2;
    while (others < k) others *= 2;
    int is_high = block < others || (block == others && k <= r), is_long = block <= 4 || size >= 256;
    if (block == 1 || !is_high || !is_long || size % 64 || !strcmp(rs_build_name(), "x86-64")) return 0;
    return block > 4 && k > block ? 2 * block : block;
}

/* Counts and a size. rs_work_bytes is what the call needs that needs most. */
static void shape(size_t k, size_t r, size_t size) {
    size_t used = heap_used, most = 0;
    struct message m = made(k, r, size);
    for (int call = 0; call < CALLS; call++) {
        size_t restored = has_surplus(call) ? lost(&m, call) : 0, enough = rs_work_bytes(k, r, size, restored);
        size_t least_number = needed(&m, call, enough), offsets = k + r < 40 && size < 200 ? 64 : 3;
        size_t rows = rows_to_read(k, r, size);
        if (call <= ENCODE_SHARDS && rows && least_number != 63 + rows * (size < 4096 ? size : 4096))
            wrong("an encode needs other rows than those of one or two blocks");
        if (least_number > most) most = least_number;
        if (call == DECODE_SHARDS && most != enough && has_rows(&m, call))
            wrong("rs_work_bytes is larger than what calls need");
        if (call == DECODE_SHARDS_SURPLUS && most != enough && has_rows(&m, call))
            wrong("rs_work_bytes is larger than what a decode with surplus needs");
        for (size_t i = 0; i < offsets; i++) {
            size_t offset = offsets == 64 ? i : 31 * i, before = heap_used;
            unsigned char *work = guarded(offset, enough);
            if (!succeeds(&m, call, work, enough)) wrong(names[call]);
            check_guards(work, enough);
            heap_used = before;
        }
    }
    heap_used = used;
}

/* Many counts and sizes, or only small ones. */
static void shapes(int few) {
    static const size_t counts[][2] = {{1, 1},   {1, 2},  {2, 1},    {2, 2},    {3, 2},   {2, 3},    {4, 3},
                                       {5, 4},   {10, 4}, {7, 9},    {1, 33},   {33, 1},  {31, 33},  {32, 32},
                                       {33, 31}, {64, 3}, {60, 8},   {100, 30}, {30, 100}, {255, 1}, {128, 128}};
    static const size_t sizes[] = {2, 62, 64, 66, 130, 2046, 2048, 2050, 4094, 4096, 4098, 10000};
    size_t number = 0;
    static const size_t large[][3] = {{1000, 200, 1024}, {3000, 5000, 2},   {65535, 1, 2},    {1, 65535, 2},
                                      {4080, 16, 2},     {32768, 32768, 2}, {10, 4, 1 << 20}};
    for (size_t i = 0; i < sizeof counts / sizeof *counts; i++)
        for (size_t n = 0; n < sizeof sizes / sizeof *sizes; n++)
            if (!few || counts[i][0] + counts[i][1] < 10) shape(counts[i][0], counts[i][1], sizes[n]), number++;
    for (size_t k = 1; k < 20 && !few; k++)
        for (size_t r = 1; r < 20; r++, number++) shape(k, r, 2 + 2 * ((k * 7 + r) % 50));
    for (size_t i = 0; i < sizeof large / sizeof *large && !few; i++, number++)
        shape(large[i][0], large[i][1], large[i][2]);
    printf("work: each call with rs_work_bytes, and with less, for %zu counts and sizes\n", number);
}

static void of_tables(void) {
    size_t enough = rs_tables_work_bytes(), used = heap_used;
    struct rs_tables *other = room(sizeof *other), *old = room(sizeof *old);
    unsigned char *work = guarded(1, enough);
    long before = requests;
    memset(other, 170, sizeof *other);
    memcpy(old, other, sizeof *old);
    if (rs_tables_make_with_work(other, work, enough - 1) != RS_OUT_OF_MEMORY || memcmp(other, old, sizeof *other))
        wrong("tables with less memory");
    if (rs_tables_make_with_work(other, NULL, 0) != RS_OUT_OF_MEMORY || memcmp(other, old, sizeof *other))
        wrong("tables without memory");
    if (rs_tables_make_with_work(other, work, enough) || memcmp(other, tables, sizeof *other))
        wrong("tables with work memory");
    if (requests != before) wrong("tables request memory from malloc");
    check_guards(work, enough);
    heap_used = used;
    puts("work: tables");
}

/* Faults come as in the calls without work memory, NULL in arrays is allowed, and the next call without work memory
   allocates. */
static void faults(void) {
    uint8_t bytes[20] = {0}, marks[5] = {1, 1, 1, 0, 0};
    static unsigned char work[1 << 16], longer[5 * 4096];
    struct rs_bytes from[3] = {{bytes, 4}, {bytes, 4}, {bytes, 4}};
    struct rs_room to[2] = {{bytes, 4}, {bytes + 4, 4}};
    struct rs_shard nothing[3] = {{2, NULL, 0}, {0, NULL, 0}, {1, NULL, 0}}, own = {0, bytes, 4},
                    other[2] = {{0, bytes, 4}, {1, bytes, 4}};
    struct rs_fault fault;
    size_t enough = rs_work_bytes(3, 2, 4, 0);
    long before = requests;
    if (rs_encode_with_work(tables, 0, 2, 4, NULL, 0, NULL, 0, NULL, 0, NULL) != RS_UNSUPPORTED_SHARD_COUNT ||
        rs_encode_with_work(tables, 3, 2, 4, bytes, 11, bytes, 8, work, enough, &fault) != RS_WRONG_LENGTH ||
        fault.first != 12 || fault.second != 11)
        wrong("the faults of an encode");
    if (rs_decode_with_work(tables, 3, 2, 4, bytes, 12, bytes, 8, marks, 5, NULL, 0, NULL))
        wrong("a decode that needs no memory");
    if (rs_decode_shards_with_work(tables, 3, 2, nothing, 3, NULL, 0, NULL, 0, work, enough, &fault) ||
        rs_decode_shards_with_work(tables, 3, 2, nothing, 3, NULL, 0, NULL, 0, NULL, 0, NULL) != RS_OUT_OF_MEMORY)
        wrong("NULL in an array");
    from[1].bytes = NULL, from[1].length = 0;
    if (rs_encode_shards_with_work(tables, 3, 2, from, 3, to, 2, work + 1, enough, &fault) != RS_DIFFERENT_SHARD_SIZE ||
        fault.third != 1 ||
        rs_decode_shards_with_work(tables, 3, 2, nothing, 3, other, 2, NULL, 0, work + 1, enough, &fault) !=
            RS_DIFFERENT_SHARD_SIZE ||
        rs_decode_shards_with_work(tables, 1, 1, nothing + 1, 1, other, 1, NULL, 0, work + 1, rs_work_bytes(1, 1, 4, 0),
                                   &fault) != RS_DIFFERENT_SHARD_SIZE)
        wrong("NULL in arrays of a call that fails");
    from[1].bytes = bytes, from[1].length = 4;
    if (rs_decode_shards_with_work(tables, 3, 2, &own, 1, other, 2, to, 1, work, rs_work_bytes(3, 2, 4, 2), &fault) !=
            RS_WRONG_NUMBER_OF_ROOMS ||
        rs_decode_shards_with_work(tables, 3, 2, &own, 1, other, 2, to, 1, work, enough - 256, &fault) !=
            RS_OUT_OF_MEMORY)
        wrong("rooms that don't fit");
    if (requests != before) wrong("a call that fails requests memory from malloc");
    if (rs_encode_shards(tables, 3, 2, from, 3, to, 2, NULL) || requests != before)
        wrong("few short shards need memory from malloc");
    if (rs_encode(tables, 3, 2, 4096, longer, 3 * 4096, longer + 3 * 4096, 2 * 4096, NULL) || requests != before + 1)
        wrong("a call without work memory");
    puts("work: faults");
}

/* A round by the calls without work memory. */
static void plain_round(struct message *m) {
    set_up(m, ENCODE);
    if (rs_encode(tables, m->k, m->r, m->size, m->originals, m->k * m->size, m->written, m->r * m->size, NULL) ||
        memcmp(m->written, m->recovery, m->r * m->size))
        wrong("an encode beside calls with work memory");
    set_up(m, DECODE);
    if (rs_decode(tables, m->k, m->r, m->size, m->written, m->k * m->size, m->recovery, m->r * m->size, m->marks,
                  m->k + m->r, NULL) ||
        memcmp(m->written, m->originals, m->k * m->size))
        wrong("a decode beside calls with work memory");
}

/* Odd threads pass work memory, even ones do not. */
static void *thread(void *place) {
    size_t i = *(size_t *)place;
    struct message m = made(10 + i, 4 + i, 130);
    size_t enough = rs_work_bytes(m.k, m.r, m.size, m.r);
    unsigned char *work = room(enough);
    for (int n = 0; n < 500; n++)
        if (i % 2) {
            for (int call = 0; call < CALLS; call++)
                if (!succeeds(&m, call, work, enough)) wrong("a call in a thread");
        } else {
            plain_round(&m);
        }
    return NULL;
}

static void threads(void) {
    pthread_t all[4];
    size_t places[4] = {0, 1, 2, 3};
    for (int i = 0; i < 4; i++)
        if (pthread_create(&all[i], NULL, thread, &places[i])) wrong("no thread");
    for (int i = 0; i < 4; i++) pthread_join(all[i], NULL);
    puts("work: threads with work memory beside threads without");
}

int main(int count, char **words) {
    make_tables();
    of_tables();
    faults();
    shapes(count == 2 && !strcmp(words[1], "few"));
    threads();
    return 0;
}
