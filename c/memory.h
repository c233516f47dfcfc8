/* The memory of calls, for c/layer.c and c/work.c. A call takes its blocks from the memory that is lent to it: the work
   memory of a caller, or a few bytes of the stack. If these bytes are used up, it takes blocks from the allocator. */
#pragma once
#include <stdbool.h>
#include <stddef.h>
#include <stdint.h>
#include <string.h>

/* Whether there is memory, and where. If there is none, the pointer has any value but NULL. */
struct tried {
    bool ok;
    void *at;
};

struct tried rs_alloc(size_t size, size_t align);
void rs_dealloc(void *at);

/* A block of lent memory begins at a multiple of 64, and takes a multiple of 64 bytes. */
enum { UNIT = 64 };

/* The least multiple of another number that is not below the number. */
static inline size_t rounded_up(size_t number, size_t multiple) {
    return (number + multiple - 1) / multiple * multiple;
}

static inline size_t least(size_t one, size_t other) {
    return one < other ? one : other;
}

/* How many bytes of the stack a call lends: enough for all blocks of a call with few short shards. A test lends none,
   so that each block comes from the allocator. */
#ifndef RS_STACK_BYTES
#define RS_STACK_BYTES 4096
#endif

/* With glibc, a thread has the memory for a thread-local variable of this model from its start. For the default model,
   the first use in a thread would call malloc if the library was opened by dlopen. Other C libraries never call malloc
   for it, and some of them cannot open a library that has a variable of this model. */
#ifdef __GLIBC__
#define FROM_THE_START __attribute__((tls_model("initial-exec"), visibility("hidden")))
#else
#define FROM_THE_START __attribute__((visibility("hidden")))
#endif

/* The memory that is lent to the call that runs in this thread. */
extern FROM_THE_START _Thread_local struct lent {
    unsigned char *begin;
    size_t length, used; /* in bytes. Both are 0 if nothing is lent. */
    bool is_all;         /* whether the call must take nothing from the allocator */
} rs_lent;

/* The first address from this one on that is a multiple of UNIT. */
static inline unsigned char *aligned(unsigned char *from) {
    return from + (UNIT - (uintptr_t)from % UNIT) % UNIT;
}

/* Lends bytes of the stack to the proved call that this function makes, unless its caller has lent work memory. An
   allocator of the host may make a call of the library, too, so the loan of the outer call is kept. */
#define LEND_STACK                                  \
    unsigned char stack[RS_STACK_BYTES + UNIT - 1]; \
    const struct lent loan = rs_lent;               \
    if (!loan.is_all) rs_lent = (struct lent){aligned(stack), RS_STACK_BYTES, 0, false}

/* Ends the loan of bytes of the stack, and returns what the call has returned. */
static inline uint32_t taken_back(const struct lent *loan, uint32_t answer) {
    rs_lent = *loan;
    return answer;
}

/* A call of the header under a name that the library does not export. The calls of c/work.c use it: a program that has
   a function rs_encode of its own must not get their calls. */
#define INSIDE(call) __attribute__((visibility("hidden"))) __typeof__(call) call##_inside
