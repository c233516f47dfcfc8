/* The builds of the library, and the choice of the one that fits the processor. c/layer.c includes this file.

   A library for x86-64 holds three builds: for x86-64, for x86-64-v2 and for x86-64-v3. c/rename gives the calls of
   each build names of their own, for example rs_encode_v3. A library for arm64 holds one build, rs_encode_v1. This file
   is compiled for the oldest processor. */
#pragma once
#include "reed_solomon_simd.h"
#include <stdatomic.h>
#include <stdlib.h>
#include <string.h>

/* The proved calls of a build: X(call, level) for each. They have the types of the calls of the header. */
#define PROVED(X, level)                                                                                   \
    X(tables_make, level) X(encode, level) X(decode, level) X(encode_shards, level) X(decode_shards, level) \
    X(verify, level) X(reconstruct, level) X(update, level)
#define FIELD(call, level) __typeof__(rs_##call) *call;
#define DECLARED(call, level) __typeof__(rs_##call) rs_##call##_##level;
#define NAMED(call, level) rs_##call##_##level,
struct build {
    const char *name;
    PROVED(FIELD, any)
};
PROVED(DECLARED, v1)

/* These calls have nothing to gain from newer instructions. */
size_t rs_fault_text_v1(const struct rs_fault *fault, uint8_t *text, size_t text_length);
uint32_t rs_supports_v1(size_t original_count, size_t recovery_count);
uint32_t rs_version_v1(void);

#ifdef __x86_64__
#include <cpuid.h>

PROVED(DECLARED, v2)
PROVED(DECLARED, v3)
static const struct build builds[] = {{"x86-64", PROVED(NAMED, v1)},
                                      {"x86-64-v2", PROVED(NAMED, v2)},
                                      {"x86-64-v3", PROVED(NAMED, v3)}};

/* What cpuid and xgetbv say of the processor and the system: registers of cpuid 1, 7 and 0x80000001, and the register
   XCR0. */
struct processor {
    unsigned ecx1, ebx7, extended_ecx, states;
};

/* Every processor of x86-64 has cpuid 1 and 0x80000001, and some have no cpuid 7. */
static struct processor asked(void) {
    struct processor told = {0, 0, 0, 0};
    unsigned a, b, c, d;
    __cpuid(1, a, b, told.ecx1, d);
    __cpuid(0x80000001, a, b, told.extended_ecx, d);
    if (__get_cpuid_count(7, 0, &a, &b, &c, &d)) told.ebx7 = b;
    if (told.ecx1 & bit_OSXSAVE) __asm__("xgetbv" : "=a"(told.states), "=d"(d) : "c"(0));
    return told;
}

/* The level of x86-64 that the processor and the system have: 1, 2 or 3, as the x86-64 ABI lists its features. Beside
   its instructions, level 3 needs a system that keeps the registers of AVX. */
static unsigned level_of(struct processor told) {
    const unsigned ecx1_v2 = bit_SSE3 | bit_SSSE3 | bit_CMPXCHG16B | bit_SSE4_1 | bit_SSE4_2 | bit_POPCNT;
    const unsigned ecx1_v3 = bit_FMA | bit_MOVBE | bit_OSXSAVE | bit_AVX | bit_F16C;
    const unsigned ebx7_v3 = bit_BMI | bit_AVX2 | bit_BMI2;
    const unsigned registers = 6; /* SSE and AVX */
    if ((told.ecx1 & ecx1_v2) != ecx1_v2 || !(told.extended_ecx & bit_LAHF_LM)) return 1;
    if ((told.ecx1 & ecx1_v3) != ecx1_v3 || (told.ebx7 & ebx7_v3) != ebx7_v3) return 2;
    return (told.extended_ecx & bit_ABM) && (told.states & registers) == registers ? 3 : 2;
}
#ifndef RS_LEVEL
#define RS_LEVEL level_of(asked())
#endif
#else
static const struct build builds[] = {{"arm64", PROVED(NAMED, v1)}};
#define RS_LEVEL 1
#endif

/* The newest build that the processor can run, or an older one that the variable RS_BUILD of the environment names. */
static const struct build *chosen(void) {
    const struct build *newest = &builds[RS_LEVEL - 1];
    const char *wanted = getenv("RS_BUILD");
    for (const struct build *older = builds; wanted && older < newest; older++)
        if (!strcmp(older->name, wanted)) return older;
    return newest;
}

/* The build that all calls use, or NULL before the first call. */
static _Atomic(const struct build *) found;

/* Finds this build. If several threads do so at once, all find the same one. A test compiles this file with RS_LEVEL,
   the number of the newest build. */
static const struct build *fitting(void) {
    const struct build *now = atomic_load_explicit(&found, memory_order_relaxed);
    if (!now) atomic_store_explicit(&found, now = chosen(), memory_order_relaxed);
    return now;
}
