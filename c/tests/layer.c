/* The layer by itself, over calls that only record what they get: the choice of a build, and what becomes of NULL. This
   file includes the layer, so that it also sees functions which the library doesn't export. */
#define _DEFAULT_SOURCE /* for setenv */
#include <stdbool.h>
#include <stdio.h>
#include <stdlib.h>
#include <string.h>

/* The layer has one instruction of its own, xgetbv. */
#ifdef __x86_64__
#include "processor.h"
#define __asm__(...) (told.states = kept_states(), d = 0)
#include "../choice.h"
#undef __asm__
#endif
#include "../layer.c"

FROM_THE_START _Thread_local struct lent rs_lent;

static void wrong(const char *what) {
    printf("layer: %s\n", what);
    exit(1);
}

/* What the last proved call got. */
static struct {
    unsigned level;
    const void *first, *second, *third;
    size_t lengths[3];
    struct rs_bytes entries[3][2];
    const struct rs_wanted *wanted;
    size_t wanted_number;
    struct rs_fault *fault;
} got;

/* The answer of each proved call. */
enum { ANSWER = 77 };

static long blocks;

/* How many requests for memory there were. The one with the number `refused` is refused, and if `refuses_rest` is
   set, each one after it. */
static long requests, refused;
static bool refuses_rest;

struct tried rs_alloc(size_t size, size_t align) {
    struct tried tried = {true, nowhere};
    requests++;
    if (align != 8) wrong("another alignment");
    if (refused && (refuses_rest ? requests >= refused : requests == refused)) tried.ok = false;
    if (!tried.ok) return tried;
    blocks++;
    tried.at = malloc(size);
    return tried;
}

void rs_dealloc(void *at) {
    blocks--;
    free(at);
}

/* Records an array: up to two of its entries, which end with a pointer and a length. */
static void record(size_t place, const void *array, size_t number, size_t size) {
    if (!array) wrong("a proved call gets NULL as an array");
    got.lengths[place] = number;
    for (size_t i = 0; i < number && i < 2; i++) {
        memcpy(&got.entries[place][i], (const char *)array + (i + 1) * size - sizeof(struct rs_bytes),
               sizeof(struct rs_bytes));
        if (!got.entries[place][i].bytes && !got.entries[place][i].length) wrong("a proved call gets NULL in an array");
    }
}

static struct rs_tables *tables;

/* A call that encodes or decodes is lent bytes of the stack, or keeps the work memory that its caller has lent. */
static void check_loan(void) {
    if (rs_lent.is_all ? rs_lent.begin != nowhere || rs_lent.length != 16 || rs_lent.used != 3
                       : rs_lent.length != RS_STACK_BYTES || rs_lent.used || (uintptr_t)rs_lent.begin % UNIT)
        wrong("a call has other memory");
    memset(rs_lent.begin, 0, rs_lent.length);
}

static uint32_t answered(unsigned level, const void *first, const void *second, const void *third,
                         struct rs_fault *fault) {
    const struct rs_fault some = {ANSWER, 1, 2, 3};
    got.level = level;
    got.first = first;
    got.second = second;
    got.third = third;
    if (!first || !second || !third) wrong("a proved call gets NULL");
    if (first != tables) check_loan();
    *fault = some;
    got.fault = fault;
    return ANSWER;
}

#define RECORDER(level, number)                                                                                    \
    uint32_t rs_tables_make_##level(struct rs_tables *tables) {                                                    \
        struct rs_fault fault;                                                                                     \
        return answered(number, tables, tables, tables, &fault);                                                   \
    }                                                                                                              \
    uint32_t rs_encode_##level(const struct rs_tables *t, size_t k, size_t r, size_t size, const uint8_t *o,       \
                               size_t ol, uint8_t *q, size_t ql, struct rs_fault *fault) {                         \
        if (t != tables || k != 3 || r != 2 || size != 4) wrong("an encode passes other numbers");                 \
        got.lengths[0] = ol, got.lengths[1] = ql;                                                                  \
        return answered(number, o, q, q, fault);                                                                   \
    }                                                                                                              \
    uint32_t rs_decode_##level(const struct rs_tables *t, size_t k, size_t r, size_t size, uint8_t *o, size_t ol,  \
                               const uint8_t *q, size_t ql, const uint8_t *m, size_t ml, struct rs_fault *fault) { \
        if (t != tables || k != 3 || r != 2 || size != 4) wrong("a decode passes other numbers");                  \
        got.lengths[0] = ol, got.lengths[1] = ql, got.lengths[2] = ml;                                             \
        return answered(number, o, q, m, fault);                                                                   \
    }                                                                                                              \
    uint32_t rs_encode_shards_##level(const struct rs_tables *t, size_t k, size_t r, const struct rs_bytes *o,     \
                                      size_t on, const struct rs_room *q, size_t qn, struct rs_fault *fault) {     \
        if (t != tables || k != 3 || r != 2) wrong("an encode of shards passes other numbers");                    \
        record(0, o, on, sizeof *o), record(1, q, qn, sizeof *q);                                                  \
        return answered(number, o, q, q, fault);                                                                   \
    }                                                                                                              \
    uint32_t rs_decode_shards_##level(const struct rs_tables *t, size_t k, size_t r, const struct rs_shard *o,     \
                                      size_t on, const struct rs_shard *q, size_t qn, const struct rs_room *to,    \
                                      size_t tn, struct rs_fault *fault) {                                         \
        if (t != tables || k != 3 || r != 2) wrong("a decode of shards passes other numbers");                     \
        record(0, o, on, sizeof *o), record(1, q, qn, sizeof *q), record(2, to, tn, sizeof *to);                   \
        return answered(number, o, q, to, fault);                                                                  \
    }                                                                                                              \
    uint32_t rs_verify_##level(const struct rs_tables *t, size_t k, size_t r, const struct rs_shard *o, size_t on, \
                               const struct rs_shard *q, size_t qn, struct rs_fault *fault) {                      \
        if (t != tables || k != 3 || r != 2) wrong("a verification passes other numbers");                         \
        record(0, o, on, sizeof *o), record(1, q, qn, sizeof *q);                                                  \
        return answered(number, o, q, q, fault);                                                                   \
    }                                                                                                              \
    uint32_t rs_reconstruct_##level(const struct rs_tables *t, size_t k, size_t r, const struct rs_shard *o,       \
                                    size_t on, const struct rs_shard *q, size_t qn, const struct rs_wanted *w,     \
                                    size_t wn, const struct rs_room *to, size_t tn, struct rs_fault *fault) {      \
        if (t != tables || k != 3 || r != 2 || !w) wrong("a reconstruction passes other numbers");                 \
        record(0, o, on, sizeof *o), record(1, q, qn, sizeof *q), record(2, to, tn, sizeof *to);                   \
        got.wanted = w, got.wanted_number = wn;                                                                    \
        return answered(number, o, q, to, fault);                                                                  \
    }                                                                                                              \
    uint32_t rs_update_##level(const struct rs_tables *t, size_t k, size_t r, size_t index, const uint8_t *b,      \
                               size_t bl, const uint8_t *a, size_t al, const struct rs_room *q, size_t qn,         \
                               struct rs_fault *fault) {                                                           \
        if (t != tables || k != 3 || r != 2 || index != 1) wrong("an update passes other numbers");                \
        record(2, q, qn, sizeof *q);                                                                               \
        got.lengths[0] = bl, got.lengths[1] = al;                                                                  \
        return answered(number, b, a, q, fault);                                                                   \
    }

RECORDER(v1, 1)
#ifdef __x86_64__
RECORDER(v2, 2)
RECORDER(v3, 3)
#endif

/* A text of five bytes. */
size_t rs_fault_text_v1(const struct rs_fault *fault, uint8_t *text, size_t text_length) {
    if (!text || fault->number != ANSWER) wrong("a text gets other arguments");
    memcpy(text, "fault", text_length < 5 ? text_length : 5);
    return 5;
}

uint32_t rs_supports_v1(size_t original_count, size_t recovery_count) {
    return original_count == 3 && recovery_count == 2 ? ANSWER : 0;
}

uint32_t rs_version_v1(void) {
    return 5 * 65536 + 6;
}

/* The level of each processor that lacks one of the features, and of one that has all of them. */
static void levels(void) {
#ifdef __x86_64__
    const struct processor all = {~0u, ~0u, ~0u, ~0u};
    const unsigned second[] = {bit_SSE3, bit_SSSE3, bit_CMPXCHG16B, bit_SSE4_1, bit_SSE4_2, bit_POPCNT};
    const unsigned third[] = {bit_FMA, bit_MOVBE, bit_OSXSAVE, bit_AVX, bit_F16C},
                   third7[] = {bit_BMI, bit_AVX2, bit_BMI2};
    struct processor told = all;
    if (level_of(all) != 3) wrong("a processor with everything isn't of level 3");
    for (size_t i = 0; i < sizeof second / sizeof *second; i++, told = all)
        if (told.ecx1 &= ~second[i], level_of(told) != 1) wrong("a feature of level 2 isn't asked for");
    for (size_t i = 0; i < sizeof third / sizeof *third; i++, told = all)
        if (told.ecx1 &= ~third[i], level_of(told) != 2) wrong("a feature of level 3 isn't asked for");
    for (size_t i = 0; i < sizeof third7 / sizeof *third7; i++, told = all)
        if (told.ebx7 &= ~third7[i], level_of(told) != 2) wrong("a feature of level 3 isn't asked for");
    if (told.extended_ecx &= ~(unsigned)bit_LAHF_LM, level_of(told) != 1) wrong("LAHF isn't asked for");
    told = all;
    if (told.extended_ecx &= ~(unsigned)bit_ABM, level_of(told) != 2) wrong("LZCNT isn't asked for");
    told = all;
    if (told.states &= ~4u, level_of(told) != 2) wrong("the registers of AVX aren't asked for");
    told = all;
    if (told.states &= ~2u, level_of(told) != 2) wrong("the registers of SSE aren't asked for");
    told = (struct processor){0, 0, 0, 0};
    if (level_of(told) != 1) wrong("a processor with nothing isn't of level 1");
    printf("layer: this processor has level %u\n", level_of(asked()));
    if (fitting() != &builds[level_of(asked()) - 1] || fitting() != fitting())
        wrong("another build than the one that fits");
#else
    if (fitting() != builds || strcmp(rs_build_name(), "arm64")) wrong("another build than the only one");
#endif
}

#ifdef __x86_64__
/* The layer stores a build only after it has asked. If it stored one before, a call in another thread could take it. */
static bool is_choosing;
static void while_asked(void) {
    if (is_choosing && atomic_load(&found)) wrong("a build is chosen before the processor is asked");
}

/* The first call on this processor asks for everything, executes xgetbv only if the processor allows it, and takes
   the build of this level. */
static void on_processor(struct answers answers, unsigned level) {
    bool is_allowed = answers.ecx1 & bit_OSXSAVE;
    others = &answers;
    state_reads = 0;
    struct processor told = asked();
    if (state_reads != is_allowed) wrong("xgetbv is executed where it is illegal, or not where it is needed");
    if (told.ecx1 != answers.ecx1 || told.ebx7 != (answers.most < 7 ? 0 : answers.ebx7) ||
        told.extended_ecx != answers.extended_ecx || told.states != (is_allowed ? answers.states : 0))
        wrong("other answers of the processor");
    atomic_store(&found, NULL);
    is_choosing = true;
    static const char *const build_names[] = {"x86-64", "x86-64-v2", "x86-64-v3"};
    if (fitting() != &builds[level - 1] || atomic_load(&found) != &builds[level - 1] ||
        strcmp(rs_build_name(), build_names[level - 1]))
        wrong("another build than the one of this level");
    is_choosing = false;
    atomic_store(&found, NULL);
    others = NULL;
}

/* Which build runs on a processor of level 3 if the variable of the environment has this value. */
static void on_wish(const char *wish, unsigned level) {
    const struct answers all = {7, ~0u, ~0u, ~0u, ~0u};
    if (setenv("RS_BUILD", wish, 1)) wrong("no environment");
    on_processor(all, level);
    unsetenv("RS_BUILD");
}

/* The variable RS_BUILD names an older build. No other value changes anything, and no build runs that the processor
   cannot run. */
static void wishes(void) {
    on_wish("x86-64", 1);
    on_wish("x86-64-v2", 2);
    on_wish("x86-64-v3", 3);
    on_wish("x86-64-v4", 3);
    on_wish("X86-64", 3);
    on_wish("v1", 3);
    on_wish("", 3);
    if (setenv("RS_BUILD", "x86-64-v3", 1)) wrong("no environment");
    on_processor((struct answers){7, ~0u, ~0u, ~0u, 3}, 2);
    if (setenv("RS_BUILD", "x86-64-v2", 1)) wrong("no environment");
    on_processor((struct answers){1, 0, ~0u, 0, ~0u}, 1);
    unsetenv("RS_BUILD");
    puts("layer: builds that the environment names");
}

/* What c/choice.h makes of other processors and systems. */
static void other_processors(void) {
    const struct answers all = {7, ~0u, ~0u, ~0u, ~0u};
    const unsigned no_avx = ~(unsigned)bit_AVX, no_system = ~(unsigned)bit_OSXSAVE, no_ssse3 = ~(unsigned)bit_SSSE3;
    on_processor(all, 3);
    on_processor((struct answers){13, ~0u, ~0u, ~0u, 6}, 3);
    on_processor((struct answers){7, ~0u, ~0u, ~0u, 3}, 2);
    on_processor((struct answers){7, ~0u, ~0u, ~0u, 5}, 2);
    on_processor((struct answers){7, ~0u, ~0u, ~0u, 0}, 2);
    on_processor((struct answers){7, no_system, ~0u, ~0u, ~0u}, 2);
    on_processor((struct answers){7, no_avx, ~0u, ~0u, ~0u}, 2);
    on_processor((struct answers){6, ~0u, ~0u, ~0u, ~0u}, 2);
    on_processor((struct answers){7, ~0u, 0, ~0u, ~0u}, 2);
    on_processor((struct answers){7, no_ssse3, ~0u, ~0u, ~0u}, 1);
    on_processor((struct answers){7, ~0u, ~0u, 0, ~0u}, 1);
    on_processor((struct answers){1, 0, ~0u, 0, ~0u}, 1);
    puts("layer: other processors and systems");
}
#endif

static void over_buffers(void) {
    uint8_t o[12] = {0}, q[8] = {0}, m[5] = {0};
    struct rs_fault fault;
    unsigned level = (unsigned)(fitting() - builds) + 1;
    if (rs_tables_make(tables) != ANSWER || got.level != level || got.first != tables) wrong("rs_tables_make");
    if (rs_encode(tables, 3, 2, 4, o, 12, q, 8, &fault) != ANSWER || got.level != level || got.first != o ||
        got.second != q || got.lengths[0] != 12 || got.lengths[1] != 8 || got.fault != &fault || fault.third != 3)
        wrong("rs_encode passes something else");
    if (rs_encode(tables, 3, 2, 4, NULL, 0, NULL, 0, NULL) != ANSWER || got.lengths[0] || got.lengths[1])
        wrong("rs_encode with NULL");
    if (rs_decode(tables, 3, 2, 4, o, 12, q, 8, m, 5, &fault) != ANSWER || got.level != level || got.first != o ||
        got.second != q || got.third != m || got.lengths[0] != 12 || got.lengths[1] != 8 || got.lengths[2] != 5 ||
        got.fault != &fault)
        wrong("rs_decode passes something else");
    if (rs_decode(tables, 3, 2, 4, NULL, 0, NULL, 0, NULL, 0, NULL) != ANSWER || got.lengths[2])
        wrong("rs_decode with NULL");
}

/* The byte of all shards. */
static uint8_t byte;

/* Arrays without NULL are passed as they are. Of an array with NULL, a copy is passed. Empty arrays may be NULL. */
static void over_arrays(void) {
    struct rs_bytes o[2] = {{&byte, 1}, {&byte, 0}};
    struct rs_room q[2] = {{&byte, 1}, {&byte, 1}};
    struct rs_shard own[2] = {{5, &byte, 1}, {6, &byte, 1}}, other[2] = {{7, &byte, 1}, {8, &byte, 1}};
    struct rs_fault fault;
    if (rs_encode_shards(tables, 3, 2, o, 2, q, 2, &fault) != ANSWER || got.first != o || got.second != q ||
        got.lengths[0] != 2 || got.lengths[1] != 2 || got.fault != &fault)
        wrong("rs_encode_shards passes something else");
    if (rs_decode_shards(tables, 3, 2, own, 2, other, 1, q, 2, &fault) != ANSWER || got.first != own ||
        got.second != other || got.third != q || got.lengths[0] != 2 || got.lengths[1] != 1 || got.lengths[2] != 2 ||
        got.fault != &fault)
        wrong("rs_decode_shards passes something else");
    if (rs_encode_shards(tables, 3, 2, NULL, 0, NULL, 0, NULL) != ANSWER || got.lengths[0] || got.lengths[1])
        wrong("empty arrays");
    if (rs_decode_shards(tables, 3, 2, NULL, 0, NULL, 0, NULL, 0, NULL) != ANSWER || got.lengths[2])
        wrong("empty arrays of a decode");
    if (rs_encode_shards(tables, 3, 2, o, 2, q, 2, NULL) != ANSWER || got.first != o || got.second != q ||
        rs_decode_shards(tables, 3, 2, own, 2, other, 2, q, 2, NULL) != ANSWER || got.first != own ||
        got.second != other || got.third != q)
        wrong("arrays without a fault");
    if (rs_encode_shards(tables, 3, 2, o, 2, NULL, 0, &fault) != ANSWER || got.first != o || got.lengths[1] ||
        rs_decode_shards(tables, 3, 2, own, 2, NULL, 0, q, 2, &fault) != ANSWER || got.first != own || got.third != q ||
        rs_decode_shards(tables, 3, 2, own, 2, other, 2, NULL, 0, &fault) != ANSWER || got.first != own ||
        got.second != other)
        wrong("an empty array beside others");
    atomic_store(&found, NULL);
    if (rs_encode_shards(tables, 3, 2, o, 2, q, 2, &fault) != ANSWER || got.first != o || got.second != q || !found)
        wrong("a first call");
    atomic_store(&found, NULL);
    if (rs_decode_shards(tables, 3, 2, own, 2, other, 2, q, 2, &fault) != ANSWER || got.first != own ||
        got.third != q || !found)
        wrong("a first call that decodes");
    q[0].bytes = NULL, q[0].length = 0;
    if (rs_encode_shards(tables, 3, 2, o, 2, q, 2, &fault) != ANSWER || got.first != o || got.second == q ||
        rs_decode_shards(tables, 3, 2, own, 2, other, 2, q, 2, &fault) != ANSWER || got.second != other ||
        got.third == q)
        wrong("NULL in the last array");
    other[0].bytes = NULL, other[0].length = 0;
    if (rs_decode_shards(tables, 3, 2, own, 2, other, 2, q + 1, 1, &fault) != ANSWER || got.first != own ||
        got.second == other || got.third != q + 1)
        wrong("NULL in the second array");
    o[1].bytes = NULL;
    if (rs_encode_shards(tables, 3, 2, o, 2, q, 2, &fault) != ANSWER || got.first == o || got.second == q)
        wrong("NULL in arrays");
    if (got.entries[0][0].bytes != &byte || got.entries[0][0].length != 1 || got.entries[0][1].length ||
        got.entries[1][0].length || got.entries[1][1].bytes != &byte)
        wrong("a copy of an array has other entries");
    own[1].bytes = NULL, own[1].length = 0;
    if (rs_decode_shards(tables, 3, 2, own, 2, other, 2, q, 2, &fault) != ANSWER || got.first == own ||
        got.second == other || got.third == q)
        wrong("NULL in arrays of a decode");
    if (o[1].bytes || q[0].bytes || own[1].bytes || other[0].bytes) wrong("an array of the caller has changed");
    if (blocks) wrong("a copy is kept");
    /* Nothing replaces NULL with a length that isn't 0: the caller has broken the rules. */
    q[0].length = o[1].length = 3;
    if (rs_encode_shards(tables, 3, 2, o, 2, q, 2, &fault) != ANSWER || got.entries[0][1].bytes ||
        got.entries[1][0].bytes || got.entries[0][1].length != 3)
        wrong("NULL with a length");
    q[0].length = o[1].length = 0;
}

/* The calls over received shards that write no lost originals: with NULL in arrays and without. */
static void over_received(void) {
    struct rs_room q[2] = {{&byte, 1}, {&byte, 1}};
    struct rs_shard own[2] = {{5, &byte, 1}, {6, &byte, 1}}, other[2] = {{7, &byte, 1}, {8, &byte, 1}};
    const struct rs_wanted wanted[2] = {{RS_ORIGINAL, 1}, {RS_RECOVERY, 0}};
    struct rs_fault fault;
    unsigned level = (unsigned)(fitting() - builds) + 1;
    if (rs_verify(tables, 3, 2, own, 2, other, 1, &fault) != ANSWER || got.level != level || got.first != own ||
        got.second != other || got.lengths[0] != 2 || got.lengths[1] != 1 || got.fault != &fault)
        wrong("rs_verify passes something else");
    if (rs_reconstruct(tables, 3, 2, own, 2, other, 1, wanted, 2, q, 2, &fault) != ANSWER || got.level != level ||
        got.first != own || got.second != other || got.third != q || got.wanted != wanted || got.wanted_number != 2 ||
        got.lengths[0] != 2 || got.lengths[1] != 1 || got.lengths[2] != 2 || got.fault != &fault)
        wrong("rs_reconstruct passes something else");
    if (rs_verify(tables, 3, 2, NULL, 0, NULL, 0, NULL) != ANSWER || got.lengths[0] || got.lengths[1] ||
        rs_reconstruct(tables, 3, 2, NULL, 0, NULL, 0, NULL, 0, NULL, 0, NULL) != ANSWER || got.lengths[2] ||
        got.wanted_number)
        wrong("empty arrays of received shards");
    if (rs_update(tables, 3, 2, 1, &byte, 1, (const uint8_t *)own, 2, q, 2, &fault) != ANSWER || got.level != level ||
        got.first != &byte || got.second != own || got.third != q || got.lengths[0] != 1 || got.lengths[1] != 2 ||
        got.lengths[2] != 2 || got.fault != &fault)
        wrong("rs_update passes something else");
    own[1].bytes = NULL, own[1].length = 0, q[1].bytes = NULL, q[1].length = 0;
    if (rs_verify(tables, 3, 2, own, 2, other, 2, &fault) != ANSWER || got.first == own || got.second != other ||
        rs_reconstruct(tables, 3, 2, own, 2, other, 2, wanted, 2, q, 2, &fault) != ANSWER || got.first == own ||
        got.second != other || got.third == q || got.wanted != wanted)
        wrong("NULL in arrays of received shards");
    if (own[1].bytes || q[1].bytes || blocks) wrong("a copy of received shards is kept");
    if (rs_update(tables, 3, 2, 1, NULL, 0, NULL, 0, q, 2, NULL) != ANSWER || got.third == q || got.lengths[0] ||
        blocks)
        wrong("NULL in an array of an update");
}

/* Arrays in which one pointer is NULL, and calls in which each array is one of them. */
static const struct rs_bytes bytes_with_null[2] = {{&byte, 1}, {NULL, 0}};
static const struct rs_room rooms_with_null[2] = {{NULL, 0}, {&byte, 1}};
static const struct rs_shard own_with_null[2] = {{5, &byte, 1}, {6, NULL, 0}};
static const struct rs_shard other_with_null[2] = {{7, NULL, 0}, {8, &byte, 1}};

static uint32_t encode_copies(struct rs_fault *fault) {
    return rs_encode_shards(tables, 3, 2, bytes_with_null, 2, rooms_with_null, 2, fault);
}

static uint32_t decode_copies(struct rs_fault *fault) {
    return rs_decode_shards(tables, 3, 2, own_with_null, 2, other_with_null, 2, rooms_with_null, 2, fault);
}

static uint32_t verify_copies(struct rs_fault *fault) {
    return rs_verify(tables, 3, 2, own_with_null, 2, other_with_null, 2, fault);
}

static uint32_t reconstruct_copies(struct rs_fault *fault) {
    static const struct rs_wanted wanted = {RS_ORIGINAL, 1};
    return rs_reconstruct(tables, 3, 2, own_with_null, 2, other_with_null, 2, &wanted, 1, rooms_with_null, 2, fault);
}

/* Only the rooms have NULL. */
static uint32_t reconstruct_into_copies(struct rs_fault *fault) {
    static const struct rs_shard own[2] = {{5, &byte, 1}, {6, &byte, 1}};
    static const struct rs_wanted wanted = {RS_ORIGINAL, 1};
    return rs_reconstruct(tables, 3, 2, own, 2, own, 2, &wanted, 1, rooms_with_null, 2, fault);
}

static uint32_t update_copies(struct rs_fault *fault) {
    return rs_update(tables, 3, 2, 1, &byte, 1, &byte, 1, rooms_with_null, 2, fault);
}

/* Makes a call of which one copy of an array, or that one and each later one, finds no memory. The call makes no
   proved call, and gives back its other copies. */
static void without_memory(uint32_t (*call)(struct rs_fault *), long number, bool rest) {
    struct rs_fault fault = {99, 99, 99, 99};
    got.level = 0;
    requests = 0, refused = number, refuses_rest = rest;
    if (call(&fault) != RS_OUT_OF_MEMORY) wrong("another answer if there is no memory for a copy");
    if (fault.number != RS_OUT_OF_MEMORY || fault.first || fault.second || fault.third)
        wrong("another fault if there is no memory for a copy");
    if (blocks) wrong("a copy is kept after a refusal");
    requests = 0;
    if (call(NULL) != RS_OUT_OF_MEMORY || blocks) wrong("no memory for a copy, without a fault");
    if (got.level) wrong("a proved call is made without a copy");
    refused = 0;
}

/* Each copy that a call makes finds no memory, in turn. */
static void refused_copies(uint32_t (*call)(struct rs_fault *), long copies) {
    struct rs_fault fault;
    for (long number = 1; number <= copies; number++) {
        without_memory(call, number, false);
        without_memory(call, number, true);
    }
    requests = 0;
    if (call(&fault) != ANSWER || requests != copies) wrong("another number of copies");
    if (blocks) wrong("a copy is kept");
}

static void copies(void) {
    refused_copies(encode_copies, 2);
    refused_copies(decode_copies, 3);
    refused_copies(verify_copies, 2);
    refused_copies(reconstruct_copies, 3);
    refused_copies(reconstruct_into_copies, 1);
    refused_copies(update_copies, 1);
}

static void texts(void) {
    const struct rs_fault fault = {ANSWER, 0, 0, 0};
    char text[8];
    if (rs_fault_text(&fault, NULL, 0) != 5) wrong("the length of a text");
    for (size_t length = 1; length <= sizeof text; length++) {
        memset(text, '#', sizeof text);
        if (rs_fault_text(&fault, text, length) != 5 || strncmp(text, "fault", length - 1)) wrong("a text");
        for (size_t i = length < 6 ? length : 6; i < sizeof text; i++)
            if (text[i] != '#') wrong("a text is written too far");
        if (strlen(text) != (length < 6 ? length - 1 : 5)) wrong("where a text ends");
    }
#ifdef RS_SHARED
    uint8_t bytes[6] = "######";
    if (rs_fault_text_before(&fault, bytes, 6) != 5 || memcmp(bytes, "fault#", 6) ||
        rs_fault_text_before(&fault, NULL, 0) != 5)
        wrong("a text of an earlier version");
#endif
    if (strcmp(rs_status_name(RS_OK), "RS_OK") || strcmp(rs_status_name(RS_TABLES_NOT_MADE), "RS_TABLES_NOT_MADE") ||
        strcmp(rs_status_name(RS_WANTED_RECEIVED), "RS_WANTED_RECEIVED") ||
        strcmp(rs_status_name(RS_WANTED_RECEIVED + 1), "unknown") || strcmp(rs_status_name(UINT32_MAX), "unknown"))
        wrong("the names of numbers");
}

static void sizes(void) {
    const size_t most = SIZE_MAX;
    if (rs_shard_bytes(0, 1) != 2 || rs_shard_bytes(0, most) != 2 || rs_shard_bytes(0, 0) || rs_shard_bytes(5, 0))
        wrong("sizes of nothing");
    if (rs_shard_bytes(1, 1) != 2 || rs_shard_bytes(2, 1) != 2 || rs_shard_bytes(3, 1) != 4 ||
        rs_shard_bytes(30, 10) != 4 || rs_shard_bytes(20, 10) != 2 || rs_shard_bytes(21, 10) != 4 ||
        rs_shard_bytes(most, most) != 2 || rs_shard_bytes(most, 2) != most / 2 + 1 ||
        rs_shard_bytes(most - 1, 1) != most - 1 || rs_shard_bytes(most, 1))
        wrong("sizes");
    for (size_t total = 0; total < 300; total++)
        for (size_t k = 1; k < 40; k++) {
            size_t size = rs_shard_bytes(total, k);
            if (size < 2 || size % 2 || size * k < total || (size > 2 && (size - 2) * k >= total))
                wrong("the least size");
        }
    if (rs_tables_bytes() != sizeof *tables) wrong("the size of the tables");
}

int main(void) {
    tables = malloc(sizeof *tables);
#ifdef __x86_64__
    other_processors();
    wishes();
#endif
    levels();
    over_buffers();
    over_arrays();
    over_received();
    copies();
    if (rs_lent.length || rs_lent.used) wrong("a call leaves memory lent");
    rs_lent = (struct lent){nowhere, 16, 3, true};
    over_buffers();
    over_arrays();
    over_received();
    copies();
    if (rs_lent.begin != nowhere || rs_lent.length != 16 || rs_lent.used != 3 || !rs_lent.is_all)
        wrong("a call ends a loan of work memory");
    texts();
    sizes();
    if (rs_supports(3, 2) != ANSWER || rs_supports(2, 3) || rs_version() != 5 * 65536 + 6) wrong("other numbers");
    if (strcmp(rs_version_text(), RS_VERSION_TEXT)) wrong("another version");
    free(tables);
    puts("layer: each call with NULL and without");
    return 0;
}
