/* The library over an allocator of this program's. Each request for memory is refused in turn, a call makes as many
   requests as are recorded here, and all that was taken comes back, after a refusal too. The C layer is built with
   RS_STACK_BYTES=0, so that no block lies on the stack. */
#include "reed_solomon_simd.h"

#include <stdbool.h>
#include <stdio.h>
#include <stdlib.h>
#include <string.h>

struct tried {
    bool ok;
    void *at;
};

/* How many requests for memory the calls make. The decodes sum the received shards, because few are lost. */
enum {
    TABLES = 6,
    ENCODE = 1,
    ENCODE_SHARDS = 1,
    DECODE = 6,
    DECODE_SHARDS = 7,
    RECONSTRUCT = 9,
    VERIFY = 3,
    VERIFY_FEWER = 6,
    UPDATE = 4
};
/* With a surplus shard, a decode restores to vectors first: the list of them, and each vector. */
enum { LIST = 1 };
/* The calls over received shards first make a list of the originals and one of the recovery shards. With two lost
   originals and rooms that do not fit, a decode makes a list and two vectors. */
enum { LISTS = 2, RESTORED = LIST + 2 };

static long requests, refused, blocks;
/* How many bytes the blocks have, and the most that they had. */
static size_t held, most_held;
static char nowhere;

static struct tried told(void *at) {
    struct tried tried = {at != NULL, at ? at : &nowhere};
    return tried;
}

struct tried rattle_alloc(size_t size, size_t align);
struct tried rattle_realloc(void *old, size_t kept, size_t size, size_t align);
void rattle_dealloc(void *at);

/* A block has its size in the 64 bytes before it. */
static void *block_of(char *from, size_t size) {
    if (!from) return NULL;
    *(size_t *)from = size;
    held += size;
    if (held > most_held) most_held = held;
    return from + 64;
}

struct tried rattle_alloc(size_t size, size_t align) {
    if (++requests == refused) return told(NULL);
    blocks++;
    size = size ? size : align;
    return told(block_of(malloc(64 + size), size));
}

struct tried rattle_realloc(void *old, size_t kept, size_t size, size_t align) {
    char *from = (char *)old - 64;
    (void)kept;
    if (++requests == refused) return told(NULL);
    held -= *(size_t *)from;
    size = size ? size : align;
    return told(block_of(realloc(from, 64 + size), size));
}

void rattle_dealloc(void *at) {
    char *from = (char *)at - 64;
    blocks--;
    held -= *(size_t *)from;
    free(from);
}

static void wrong(const char *what) {
    printf("memory: %s, with request %ld of %ld refused\n", what, refused, requests);
    exit(1);
}

enum { LONGEST = 4130 };

static struct rs_tables *tables;
/* The size of the shards: one strip in a call, or two. */
static size_t size = 1200;
static uint8_t originals[3 * LONGEST], recovery[2 * LONGEST];

static uint32_t encode(void) {
    struct rs_fault fault;
    uint32_t answer = rs_encode(tables, 3, 2, size, originals, 3 * size, recovery, 2 * size, &fault);
    return answer == fault.number ? answer : 99;
}

static uint32_t decode_with(const uint8_t marks[5]) {
    struct rs_fault fault;
    uint32_t answer = rs_decode(tables, 3, 2, size, originals, 3 * size, recovery, 2 * size, marks, 5, &fault);
    return answer == fault.number ? answer : 99;
}

static uint32_t decode(void) {
    static const uint8_t marks[5] = {0, 1, 0, 1, 1};
    return decode_with(marks);
}

/* One original is lost, and four shards come. */
static uint32_t decode_surplus(void) {
    static const uint8_t marks[5] = {0, 1, 1, 1, 1};
    return decode_with(marks);
}

/* The calls over arrays: originals and recovery shards as they lie in the buffers. */
static uint32_t encode_shards(void) {
    struct rs_bytes from[3];
    struct rs_room to[2];
    struct rs_fault fault;
    uint32_t answer;
    for (size_t i = 0; i < 3; i++) from[i].bytes = originals + i * size, from[i].length = size;
    for (size_t i = 0; i < 2; i++) to[i].bytes = recovery + i * size, to[i].length = size;
    answer = rs_encode_shards(tables, 3, 2, from, 3, to, 2, &fault);
    return answer == fault.number ? answer : 99;
}

static uint32_t decode_shards(void) {
    struct rs_shard own = {1, originals + size, size}, other[2] = {{1, recovery + size, size}, {0, recovery, size}};
    struct rs_room to[2] = {{originals, size}, {originals + 2 * size, size}};
    struct rs_fault fault;
    uint32_t answer = rs_decode_shards(tables, 3, 2, &own, 1, other, 2, to, 2, &fault);
    return answer == fault.number ? answer : 99;
}

static uint32_t decode_shards_surplus(void) {
    struct rs_shard own[2] = {{1, originals + size, size}, {2, originals + 2 * size, size}};
    struct rs_shard other[2] = {{1, recovery + size, size}, {0, recovery, size}};
    struct rs_room to = {originals, size};
    struct rs_fault fault;
    uint32_t answer = rs_decode_shards(tables, 3, 2, own, 2, other, 2, &to, 1, &fault);
    return answer == fault.number ? answer : 99;
}

/* An original and a recovery shard are lost. */
static uint32_t reconstruct(void) {
    struct rs_shard own[2] = {{0, originals, size}, {1, originals + size, size}}, other = {1, recovery + size, size};
    struct rs_wanted wanted[2] = {{RS_RECOVERY, 0}, {RS_ORIGINAL, 2}};
    struct rs_room to[2] = {{recovery, size}, {originals + 2 * size, size}};
    struct rs_fault fault;
    uint32_t answer = rs_reconstruct(tables, 3, 2, own, 2, &other, 1, wanted, 2, to, 2, &fault);
    return answer == fault.number ? answer : 99;
}

/* No original is lost, one recovery shard is, and the other one is a surplus. */
static uint32_t reconstruct_surplus(void) {
    struct rs_shard own[3] = {{0, originals, size}, {1, originals + size, size}, {2, originals + 2 * size, size}};
    struct rs_shard other = {1, recovery + size, size};
    struct rs_wanted wanted = {RS_RECOVERY, 0};
    struct rs_room to = {recovery, size};
    struct rs_fault fault;
    uint32_t answer = rs_reconstruct(tables, 3, 2, own, 3, &other, 1, &wanted, 1, &to, 1, &fault);
    return answer == fault.number ? answer : 99;
}

/* Original 1 changes to another one and, in the next call, back. */
static uint32_t update(void) {
    static const uint8_t other[LONGEST] = {1, 2, 3};
    static bool is_changed;
    const uint8_t *own = originals + size;
    struct rs_room to[2] = {{recovery, size}, {recovery + size, size}};
    struct rs_fault fault;
    uint32_t answer =
        rs_update(tables, 3, 2, 1, is_changed ? other : own, size, is_changed ? own : other, size, to, 2, &fault);
    if (!answer) is_changed = !is_changed;
    return answer == fault.number ? answer : 99;
}

/* Checks the originals that come, and both recovery shards. */
static uint32_t verify(size_t count) {
    struct rs_shard own[3] = {{1, originals + size, size}, {2, originals + 2 * size, size}, {0, originals, size}};
    struct rs_shard other[2] = {{1, recovery + size, size}, {0, recovery, size}};
    struct rs_fault fault;
    uint32_t answer = rs_verify(tables, 3, 2, own, count, other, 2, &fault);
    return answer == fault.number ? answer : 99;
}

static uint32_t verify_whole(void) {
    return verify(3);
}

static uint32_t verify_two(void) {
    return verify(2);
}

/* Nothing is lost and no recovery shard comes: no memory is wanted. */
static uint32_t decode_none(void) {
    static const uint8_t all_there[5] = {1, 1, 1, 0, 0};
    struct rs_fault fault;
    uint32_t answer = rs_decode(tables, 3, 2, size, originals, 3 * size, recovery, 2 * size, all_there, 5, &fault);
    return answer == fault.number ? answer : 99;
}

static uint32_t decode_none_anywhere(void) {
    struct rs_shard all[3] = {{2, originals, size}, {0, originals, size}, {1, originals, size}};
    struct rs_fault fault;
    uint32_t answer = rs_decode_shards(tables, 3, 2, all, 3, all, 0, NULL, 0, &fault);
    return answer == fault.number ? answer : 99;
}

/* Calls over arrays in which a pointer is NULL, so that each of these arrays is copied. */
static uint32_t decode_nothing_anywhere(void) {
    const struct rs_shard all[3] = {{2, NULL, 0}, {0, originals, size}, {1, NULL, 0}};
    struct rs_fault fault;
    uint32_t answer = rs_decode_shards(tables, 3, 2, all, 3, NULL, 0, NULL, 0, &fault);
    return answer == fault.number ? answer : 99;
}

static uint32_t encode_with_null(void) {
    const struct rs_bytes from[3] = {{originals, size}, {NULL, 0}, {originals, size}};
    const struct rs_room to[2] = {{NULL, 0}, {recovery, size}};
    struct rs_fault fault;
    uint32_t answer = rs_encode_shards(tables, 3, 2, from, 3, to, 2, &fault);
    return answer == fault.number ? answer : 99;
}

static uint32_t decode_with_null(void) {
    const struct rs_shard own[2] = {{1, originals, size}, {0, NULL, 0}}, other[2] = {{1, recovery, size}, {0, NULL, 0}};
    const struct rs_room to[1] = {{NULL, 0}};
    struct rs_fault fault;
    uint32_t answer = rs_decode_shards(tables, 3, 2, own, 2, other, 2, to, 1, &fault);
    return answer == fault.number ? answer : 99;
}

/* The shards fit, and the rooms do not. */
static uint32_t decode_into_null(void) {
    const struct rs_shard own = {1, originals + size, size};
    const struct rs_shard other[2] = {{1, recovery + size, size}, {0, recovery, size}};
    const struct rs_room to[2] = {{originals, size}, {NULL, 0}};
    struct rs_fault fault;
    uint32_t answer = rs_decode_shards(tables, 3, 2, &own, 1, other, 2, to, 2, &fault);
    return answer == fault.number ? answer : 99;
}

static uint32_t verify_with_null(void) {
    const struct rs_shard own[2] = {{1, originals, size}, {0, NULL, 0}}, other[2] = {{1, recovery, size}, {0, NULL, 0}};
    struct rs_fault fault;
    uint32_t answer = rs_verify(tables, 3, 2, own, 2, other, 2, &fault);
    return answer == fault.number ? answer : 99;
}

static uint32_t reconstruct_with_null(void) {
    const struct rs_shard own[2] = {{1, originals, size}, {0, NULL, 0}}, other[2] = {{1, recovery, size}, {0, NULL, 0}};
    const struct rs_wanted wanted = {RS_ORIGINAL, 2};
    const struct rs_room to = {NULL, 0};
    struct rs_fault fault;
    uint32_t answer = rs_reconstruct(tables, 3, 2, own, 2, other, 2, &wanted, 1, &to, 1, &fault);
    return answer == fault.number ? answer : 99;
}

static uint32_t update_with_null(void) {
    const struct rs_room to[2] = {{recovery, size}, {NULL, 0}};
    struct rs_fault fault;
    uint32_t answer = rs_update(tables, 3, 2, 1, originals, size, originals, size, to, 2, &fault);
    return answer == fault.number ? answer : 99;
}

static uint32_t make(void) {
    return rs_tables_make(tables);
}

static char text[40];
static uint32_t text_made(void) {
    const struct rs_fault fault = {RS_INVALID_SHARD_SIZE, 3, 0, 0};
    return rs_fault_text(&fault, text, sizeof text) == 61 ? RS_OK : 99;
}

static uint32_t supports(void) {
    return rs_supports(3, 2) == 1 && rs_supports(0, 2) == 0 ? RS_OK : 99;
}

/* A call that is refused: it has given back all memory. */
static void refused_call(uint32_t answer, uint32_t wanted) {
    if (answer != wanted) wrong("a call is refused otherwise");
    if (blocks) wrong("a refused call keeps memory");
}

/* Refusals before and after a call has taken memory. */
static void refusals(void) {
    static const uint8_t few[5] = {0, 1, 0, 1, 0}, all[5] = {1, 1, 1, 1, 1};
    struct rs_shard own[4] = {{1, originals, 1200}, {1, originals, 1200}, {0, originals, 1202}, {3, originals, 1200}};
    struct rs_shard other[3] = {{1, recovery, 1200}, {2, recovery, 1200}, {1, recovery, 1200}};
    struct rs_bytes from[4] = {{originals, 1200}, {originals, 1200}, {originals, 1202}, {originals, 1200}};
    struct rs_room to[2] = {{recovery, 1200}, {recovery + 1200, 1198}};
    struct rs_tables *unmade = calloc(1, sizeof *unmade);
    struct rs_fault fault;
    if (!unmade) wrong("no memory for the test");
    refused = 0;
    memset(originals, 7, sizeof originals);
    memset(recovery, 9, sizeof recovery);
    refused_call(rs_encode(unmade, 3, 2, 1200, originals, 3600, recovery, 2400, &fault), RS_TABLES_NOT_MADE);
    refused_call(rs_encode(tables, 3, 2, 1201, originals, 3600, recovery, 2400, &fault), RS_WRONG_LENGTH);
    refused_call(rs_encode(tables, 3, 2, 3, originals, 9, recovery, 6, &fault), RS_INVALID_SHARD_SIZE);
    refused_call(rs_decode(tables, 3, 2, 1200, originals, 3600, recovery, 2400, few, 5, &fault), RS_NOT_ENOUGH_SHARDS);
    refused_call(rs_decode(tables, 3, 2, 1200, originals, 3600, recovery, 2400, all, 5, &fault),
                 RS_INCONSISTENT_SHARDS);
    refused_call(rs_encode_shards(tables, 3, 2, from, 0, to, 2, &fault), RS_TOO_FEW_ORIGINAL_SHARDS);
    refused_call(rs_encode_shards(tables, 3, 2, from, 2, to, 2, &fault), RS_TOO_FEW_ORIGINAL_SHARDS);
    refused_call(rs_encode_shards(tables, 3, 2, from, 3, to, 2, &fault), RS_DIFFERENT_SHARD_SIZE);
    refused_call(rs_encode_shards(tables, 1, 2, from, 2, to, 2, &fault), RS_TOO_MANY_ORIGINAL_SHARDS);
    refused_call(rs_encode_shards(tables, 2, 2, from, 2, to, 1, &fault), RS_WRONG_NUMBER_OF_ROOMS);
    refused_call(rs_encode_shards(tables, 2, 2, from, 2, to, 2, &fault), RS_WRONG_LENGTH);
    refused_call(rs_decode_shards(tables, 3, 2, own, 2, other, 1, to, 2, &fault), RS_DUPLICATE_ORIGINAL_SHARD_INDEX);
    refused_call(rs_decode_shards(tables, 3, 2, own + 2, 1, other, 1, to, 2, &fault), RS_DIFFERENT_SHARD_SIZE);
    refused_call(rs_decode_shards(tables, 3, 2, own + 3, 1, other, 1, to, 2, &fault), RS_INVALID_ORIGINAL_SHARD_INDEX);
    refused_call(rs_decode_shards(tables, 3, 2, own, 1, other, 2, to, 2, &fault), RS_INVALID_RECOVERY_SHARD_INDEX);
    refused_call(rs_decode_shards(tables, 3, 3, own, 1, other, 3, to, 2, &fault), RS_DUPLICATE_RECOVERY_SHARD_INDEX);
    refused_call(rs_decode_shards(tables, 3, 2, own, 1, other, 1, to, 2, &fault), RS_NOT_ENOUGH_SHARDS);
    refused_call(rs_decode_shards(tables, 2, 2, own, 1, other, 1, to, 2, &fault), RS_WRONG_NUMBER_OF_ROOMS);
    refused_call(rs_decode_shards(tables, 2, 2, own, 1, other, 1, to + 1, 1, &fault), RS_WRONG_LENGTH);
    refused_call(rs_decode_shards(tables, 3, 2, own, 2, other, 0, to, 0, &fault), RS_DUPLICATE_ORIGINAL_SHARD_INDEX);
    refused_call(rs_decode_shards(tables, 3, 2, own, 1, other, 0, to, 0, &fault), RS_NOT_ENOUGH_SHARDS);
    printf("memory: all is given back after a refusal\n");
    free(unmade);
}

/* 100 originals of 1 MiB, 30 recovery shards, and 30 originals lost: beside the tables and the shards, a call holds 4
   MiB at most. */
static void bounded(void) {
    enum { K = 100, R = 30, SIZE = 1 << 20, MOST = 4 << 20 };
    uint8_t *shards = malloc((size_t)(K + R) * SIZE), *restored = malloc((size_t)R * SIZE), marks[K + R];
    struct rs_bytes from[K];
    struct rs_room to[R], back[R];
    struct rs_shard own[K - R], other[R];
    struct rs_fault fault;
    if (!shards || !restored) wrong("no memory for the test");
    for (size_t i = 0; i < (size_t)K * SIZE; i++) shards[i] = (uint8_t)(i * 2654435761u >> 11);
    for (size_t i = 0; i < K; i++) from[i].bytes = shards + i * SIZE, from[i].length = SIZE;
    for (size_t i = 0; i < R; i++) {
        to[i].bytes = shards + (K + i) * SIZE, to[i].length = SIZE;
        back[i].bytes = restored + i * SIZE, back[i].length = SIZE;
        other[i].index = i, other[i].bytes = to[i].bytes, other[i].length = SIZE;
    }
    for (size_t i = R; i < K; i++) own[i - R].index = i, own[i - R].bytes = from[i].bytes, own[i - R].length = SIZE;
    most_held = held;
    if (rs_encode_shards(tables, K, R, from, K, to, R, &fault)) wrong("a long encode fails");
    if (most_held - held > MOST) wrong("rs_encode_shards holds more than 4 MiB");
    most_held = held;
    if (rs_encode(tables, K, R, SIZE, shards, (size_t)K * SIZE, shards + (size_t)K * SIZE, (size_t)R * SIZE, &fault))
        wrong("a long encode fails");
    if (most_held - held > MOST) wrong("rs_encode holds more than 4 MiB");
    most_held = held;
    if (rs_decode_shards(tables, K, R, own, K - R, other, R, back, R, &fault)) wrong("a long decode fails");
    if (most_held - held > MOST) wrong("rs_decode_shards holds more than 4 MiB");
    if (memcmp(shards, restored, (size_t)R * SIZE)) wrong("a long decode restores other bytes");
    memset(shards, '?', (size_t)R * SIZE);
    memset(marks, 1, sizeof marks);
    memset(marks, 0, R);
    most_held = held;
    if (rs_decode(tables, K, R, SIZE, shards, (size_t)K * SIZE, shards + (size_t)K * SIZE, (size_t)R * SIZE, marks,
                  K + R, &fault))
        wrong("a long decode fails");
    if (most_held - held > MOST) wrong("rs_decode holds more than 4 MiB");
    if (memcmp(shards, restored, (size_t)R * SIZE)) wrong("a long decode restores other bytes in their places");
    printf("memory: calls over shards of 1 MiB hold 4 MiB at most\n");
    free(shards);
    free(restored);
}

/* Returns a copy of bytes that a call can write to. The caller frees it. */
static uint8_t *copy_of(const void *bytes, size_t length) {
    uint8_t *copy = malloc(length);
    if (!copy) wrong("no memory for the test");
    return memcpy(copy, bytes, length);
}

/* Makes a call whose requests for memory are counted, and checks that it gives all memory back. */
static uint32_t counted(uint32_t (*call)(void)) {
    requests = 0;
    uint32_t answer = call();
    if (blocks) wrong("memory is kept");
    return answer;
}

/* Makes a call, and refuses each of its requests for memory in turn. With all of them, the call returns `last`. */
static void each_before(uint32_t last, const char *name, uint32_t (*call)(void), void *written, size_t length,
                        long number) {
    uint8_t *before = copy_of(written, length);
    for (refused = 1;; refused++) {
        uint32_t answer = counted(call);
        if (requests < refused) {
            if (answer != last) wrong("a call with memory is refused");
            if (requests != number) wrong("a call makes another number of requests");
            break;
        }
        if (answer != RS_OUT_OF_MEMORY) wrong("another answer");
        if (memcmp(before, written, length)) wrong("a refused call has written");
    }
    printf("memory: each of %ld requests of %s refused\n", requests, name);
    refused = 0;
    free(before);
}

static void each(const char *name, uint32_t (*call)(void), void *written, size_t length, long number) {
    each_before(RS_OK, name, call, written, length, number);
}

/* Makes a call over inconsistent shards, and refuses each of its requests for memory in turn. The call checks the
   shards before it fails because one of the `results` requests for results is refused. */
static void inconsistent(const char *name, uint32_t (*call)(void), void *written, size_t length, long results) {
    uint8_t *before = copy_of(written, length);
    long found = 0;
    for (refused = 1;; refused++) {
        uint32_t answer = counted(call);
        if (memcmp(before, written, length)) wrong("a call over inconsistent shards has written");
        if (requests < refused) {
            if (answer != RS_INCONSISTENT_SHARDS) wrong("inconsistent shards are not noticed");
            break;
        }
        if (answer == RS_INCONSISTENT_SHARDS) found++;
        else if (answer != RS_OUT_OF_MEMORY) wrong("another answer");
    }
    if (found != results) wrong("results that cannot be allocated hide that the shards are inconsistent");
    printf("memory: %s: each request refused over inconsistent shards\n", name);
    refused = 0;
    free(before);
}

/* Changes the last byte of a shard, or changes it back. */
static void change_last_byte(uint8_t *shard) {
    shard[size - 1] ^= 1;
}

/* Messages of one size: each request of each call refused, and what was lost comes back. */
static void messages(void) {
    memset(originals, 7, sizeof originals);
    memset(recovery, 1, sizeof recovery);
    each("rs_encode", encode, recovery, sizeof recovery, ENCODE);
    memset(recovery, 1, sizeof recovery);
    each("rs_encode_shards", encode_shards, recovery, sizeof recovery, ENCODE_SHARDS);
    for (int anywhere = 0; anywhere < 2; anywhere++) {
        memset(originals, 1, size);
        memset(originals + 2 * size, 1, size);
        each(anywhere ? "rs_decode_shards" : "rs_decode", anywhere ? decode_shards : decode, originals,
             sizeof originals, anywhere ? DECODE_SHARDS : DECODE);
        memset(originals, 1, size);
        each(anywhere ? "rs_decode_shards with a surplus shard" : "rs_decode with a surplus shard",
             anywhere ? decode_shards_surplus : decode_surplus, originals, sizeof originals,
             (anywhere ? DECODE_SHARDS : DECODE) + LIST + 1);
        for (size_t n = 0; n < 3 * size; n++)
            if (originals[n] != 7) wrong("not what was encoded");
        change_last_byte(originals + size);
        if (!anywhere) inconsistent("rs_reconstruct", reconstruct_surplus, recovery, sizeof recovery, LIST + 1);
        inconsistent(anywhere ? "rs_decode_shards" : "rs_decode", anywhere ? decode_shards_surplus : decode_surplus,
                     originals, sizeof originals, LIST + 1);
        change_last_byte(originals + size);
    }
    memset(recovery, 1, size);
    memset(originals + 2 * size, 1, size);
    each("rs_reconstruct", reconstruct, recovery, sizeof recovery, RECONSTRUCT);
    each("rs_update", update, recovery, sizeof recovery, UPDATE);
    each("rs_update back", update, recovery, sizeof recovery, UPDATE);
    each("rs_verify", verify_whole, originals, sizeof originals, VERIFY);
    each("rs_verify without an original", verify_two, originals, sizeof originals, VERIFY_FEWER);
}

/* Arrays with NULL: first each copy is refused, in turn, and then what the call requests before it finds the fault. */
static void arrays_with_null(void) {
    static const uint32_t differs = RS_DIFFERENT_SHARD_SIZE, too_short = RS_WRONG_LENGTH;
    enum { BYTES = sizeof originals, OTHERS = sizeof recovery };
    each("rs_decode_shards of originals of no bytes", decode_nothing_anywhere, originals, BYTES, 1);
    each_before(differs, "rs_encode_shards with NULL", encode_with_null, recovery, OTHERS, 2);
    each_before(differs, "rs_decode_shards with NULL", decode_with_null, originals, BYTES, 3 + LISTS);
    each_before(too_short, "rs_decode_shards into NULL", decode_into_null, originals, BYTES,
                1 + DECODE_SHARDS + RESTORED);
    each_before(differs, "rs_verify with NULL", verify_with_null, originals, BYTES, 2 + LISTS);
    each_before(differs, "rs_reconstruct with NULL", reconstruct_with_null, originals, BYTES, 3 + LISTS);
    each_before(too_short, "rs_update with NULL", update_with_null, recovery, OTHERS, 1);
}

int main(void) {
    static const uint8_t images[] = {0, 255, 170};
    static const size_t sizes[] = {1200, LONGEST};
    tables = malloc(sizeof *tables);
    if (!tables) wrong("no memory for the test");
    for (size_t i = 0; i < sizeof images; i++) {
        memset(tables, images[i], sizeof *tables);
        each("rs_tables_make", make, tables, sizeof *tables, TABLES);
        for (size_t n = 0; n < sizeof sizes / sizeof *sizes; n++) {
            size = sizes[n];
            messages();
        }
    }
    size = 1200;
    each("rs_decode without recovery shards", decode_none, originals, sizeof originals, 0);
    each("rs_decode_shards without recovery shards", decode_none_anywhere, originals, sizeof originals, 0);
    each("rs_fault_text", text_made, text, sizeof text, 0);
    each("rs_supports", supports, text, sizeof text, 0);
    arrays_with_null();
    refusals();
    bounded();
    free(tables);
    return 0;
}
