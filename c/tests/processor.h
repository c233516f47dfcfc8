/* The processor and the system that c/choice.h asks. It asks by cpuid, and for the registers that the system keeps
   by xgetbv. A test can let other ones answer: a processor without a feature, or a system that does not keep the
   registers of AVX. Include this file before c/choice.h. */
#include <cpuid.h>
#include <stdbool.h>

/* What another processor and another system answer. */
struct answers {
    unsigned most; /* the highest leaf of cpuid below 0x80000000 */
    unsigned ecx1, ebx7, extended_ecx, states;
};

/* The processor and the system that answer, or NULL for those of this machine. */
static const struct answers *others;

/* How often xgetbv was executed. Without the feature OSXSAVE it is an illegal instruction. */
static unsigned state_reads;

/* The test's own: each question of c/choice.h begins with a call of this function. */
static void while_asked(void);

static void cpuid_of(unsigned leaf, unsigned part, unsigned *a, unsigned *b, unsigned *c, unsigned *d) {
    while_asked();
    if (!others) {
        __cpuid_count(leaf, part, *a, *b, *c, *d);
        return;
    }
    *a = *b = *c = *d = 0;
    if (leaf == 1) *c = others->ecx1;
    if (leaf == 7 && part == 0) *b = others->ebx7;
    if (leaf == 0x80000001) *c = others->extended_ecx;
}

static bool cpuid_up_to(unsigned leaf, unsigned part, unsigned *a, unsigned *b, unsigned *c, unsigned *d) {
    if (leaf > (others ? others->most : __get_cpuid_max(0, NULL))) return false;
    cpuid_of(leaf, part, a, b, c, d);
    return true;
}

static unsigned kept_states(void) {
    unsigned low, high;
    while_asked();
    state_reads++;
    if (others) return others->states;
    __asm__("xgetbv" : "=a"(low), "=d"(high) : "c"(0));
    return low;
}

#undef __cpuid
#define __cpuid(leaf, a, b, c, d) cpuid_of(leaf, 0, &(a), &(b), &(c), &(d))
#define __get_cpuid_count(leaf, part, a, b, c, d) cpuid_up_to(leaf, part, a, b, c, d)
