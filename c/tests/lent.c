/* c/work.c and c/sizes.c by themselves, over calls that only record what they get and request memory: each branch of
   them. This file includes both, so that it also sees functions which the library doesn't export. c/tests/work.c tests
   the calls of the library. */
#include "../sizes.c"
#include "../work.c"

#include <stdio.h>
#include <stdlib.h>

static void wrong(const char *what) {
    printf("lent: %s\n", what);
    exit(1);
}

enum { ANSWER = 77 };

/* The allocator of the host: how often each of its functions was called, and a block that it gives, between other
   memory. */
static struct { int allocs, reallocs, deallocs; } host;
static struct {
    unsigned char before[UNIT];
    uint64_t block[16];
    unsigned char after[UNIT];
} of_allocator;
static uint64_t *const of_host = of_allocator.block;

struct tried rattle_alloc(size_t size, size_t align) {
    host.allocs++;
    return (struct tried){size == 100 && align == 8, of_host};
}

struct tried rattle_realloc(void *old, size_t kept, size_t size, size_t align) {
    host.reallocs++;
    return (struct tried){old == of_host && kept == 50 && size == 200 && align == 8, of_host + 1};
}

void rattle_dealloc(void *at) {
    host.deallocs += at == of_host;
}

/* What the next call does with its memory. */
static void (*does)(void);
static int calls;

static uint32_t answered(bool right) {
    if (!right) wrong("a call gets other arguments");
    calls++;
    does();
    return ANSWER;
}

static const struct rs_tables *tables;
static uint8_t o[12], q[8], m[5];
static struct rs_fault fault;

uint32_t rs_tables_make_inside(struct rs_tables *t) {
    return answered(t == tables);
}

uint32_t rs_encode_inside(const struct rs_tables *t, size_t k, size_t r, size_t size, const uint8_t *own, size_t ol,
                          uint8_t *to, size_t tl, struct rs_fault *f) {
    return answered(t == tables && k == 3 && r == 2 && size == 4 && own == o && ol == 12 && to == q && tl == 8 &&
                    f == &fault);
}

uint32_t rs_decode_inside(const struct rs_tables *t, size_t k, size_t r, size_t size, uint8_t *own, size_t ol,
                          const uint8_t *other, size_t tl, const uint8_t *marks, size_t ml, struct rs_fault *f) {
    return answered(t == tables && k == 3 && r == 2 && size == 4 && own == o && ol == 12 && other == q && tl == 8 &&
                    marks == m && ml == 5 && f == &fault);
}

static const struct rs_bytes from[3];
static const struct rs_room to[2];
static const struct rs_shard own[1], other[2];

uint32_t rs_encode_shards_inside(const struct rs_tables *t, size_t k, size_t r, const struct rs_bytes *a, size_t an,
                                 const struct rs_room *b, size_t bn, struct rs_fault *f) {
    return answered(t == tables && k == 3 && r == 2 && a == from && an == 3 && b == to && bn == 2 && f == &fault);
}

uint32_t rs_decode_shards_inside(const struct rs_tables *t, size_t k, size_t r, const struct rs_shard *a, size_t an,
                                 const struct rs_shard *b, size_t bn, const struct rs_room *c, size_t cn,
                                 struct rs_fault *f) {
    return answered(t == tables && k == 3 && r == 2 && a == own && an == 1 && b == other && bn == 2 && c == to &&
                    cn == 2 && f == &fault);
}

uint32_t rs_verify_inside(const struct rs_tables *t, size_t k, size_t r, const struct rs_shard *a, size_t an,
                          const struct rs_shard *b, size_t bn, struct rs_fault *f) {
    return answered(t == tables && k == 3 && r == 2 && a == own && an == 1 && b == other && bn == 2 && f == &fault);
}

static const struct rs_wanted wanted[2];

uint32_t rs_reconstruct_inside(const struct rs_tables *t, size_t k, size_t r, const struct rs_shard *a, size_t an,
                               const struct rs_shard *b, size_t bn, const struct rs_wanted *w, size_t wn,
                               const struct rs_room *c, size_t cn, struct rs_fault *f) {
    return answered(t == tables && k == 3 && r == 2 && a == own && an == 1 && b == other && bn == 2 && w == wanted &&
                    wn == 2 && c == to && cn == 2 && f == &fault);
}

uint32_t rs_update_inside(const struct rs_tables *t, size_t k, size_t r, size_t index, const uint8_t *before, size_t bl,
                          const uint8_t *after, size_t al, const struct rs_room *c, size_t cn, struct rs_fault *f) {
    return answered(t == tables && k == 3 && r == 2 && index == 1 && before == o && bl == 4 && after == q && al == 8 &&
                    c == to && cn == 2 && f == &fault);
}

uint32_t rs_supports_inside(size_t k, size_t r) {
    return k && r && k + r <= 65536;
}

/* Without memory that is lent, requests go to the host's allocator, with the same arguments and answers. */
static void without(void) {
    host.allocs = host.reallocs = host.deallocs = 0;
    struct tried block = rs_alloc(100, 8), again = rs_realloc(of_host, 50, 200, 8);
    if (!block.ok || block.at != of_host || !again.ok || again.at != of_host + 1)
        wrong("a request reaches the host otherwise");
    block = rs_alloc(101, 8), again = rs_realloc(of_host, 50, 201, 8);
    if (block.ok || !block.at || again.ok || !again.at) wrong("a refusal of the host comes otherwise");
    rs_dealloc(of_host);
    if (host.allocs != 2 || host.reallocs != 2 || host.deallocs != 1) wrong("the host gets other requests");
}

/* Blocks lie in the lent bytes of the stack while they fit. Then they come from the host's allocator. */
static void on_stack(void) {
    LEND_STACK;
    unsigned char *begin = rs_lent.begin;
    struct tried first = rs_alloc(100, 8), longer = rs_realloc(first.at, 100, 200, 8),
                 rest = rs_alloc(RS_STACK_BYTES - 384, 8);
    host.allocs = host.reallocs = host.deallocs = 0;
    if ((uintptr_t)begin % UNIT || begin < stack || begin + RS_STACK_BYTES > stack + sizeof stack)
        wrong("other memory of the stack is lent");
    if (!first.ok || first.at != begin || !longer.ok || longer.at != begin + 128 || !rest.ok || rest.at != begin + 384)
        wrong("blocks on the stack lie elsewhere");
    memset(first.at, 9, 100);
    struct tried moved = rs_realloc(first.at, 50, 100, 8), refused = rs_realloc(first.at, 50, 101, 8);
    if (host.allocs != 2 || !moved.ok || moved.at != of_host || memcmp(moved.at, first.at, 50) || refused.ok ||
        !refused.at)
        wrong("a block that does not fit the stack comes otherwise");
    if (rs_realloc(of_host, 50, 200, 8).at != of_host + 1 || host.reallocs != 1)
        wrong("a block of the host grows otherwise");
    rs_dealloc(first.at);
    rs_dealloc(begin + RS_STACK_BYTES - 1);
    if (host.deallocs) wrong("the host gets back a block of the stack");
    rs_dealloc(of_host);
    if (host.deallocs != 1) wrong("the host does not get back its block");
    if (taken_back(&loan, ANSWER) != ANSWER || rs_lent.length || rs_lent.used) wrong("the stack stays lent");
}

static void on_stack_again(void) {
    LEND_STACK;
    struct tried inner = rs_alloc(1, 1);
    if (!inner.ok || inner.at != aligned(stack)) wrong("a block of an inner call lies elsewhere");
    taken_back(&loan, ANSWER);
}

/* A call that the host's allocator makes has bytes of its own, and then the outer call has its bytes again. */
static void inside_another(void) {
    LEND_STACK;
    struct tried outer = rs_alloc(100, 8);
    on_stack_again();
    host.deallocs = 0;
    rs_dealloc(outer.at);
    if (host.deallocs || rs_lent.begin != aligned(stack) || rs_lent.used != 128)
        wrong("an inner call ends the loan of the outer one");
    taken_back(&loan, ANSWER);
}

/* A block of the host's allocator is not taken for lent memory, even if it begins where lent memory ends, or lies
   before it. */
static void beside_lent(void) {
    const struct lent loan = rs_lent;
    const struct lent around[2] = {{of_allocator.before, UNIT, 0, false}, {of_allocator.after, UNIT, 0, false}};
    host.reallocs = host.deallocs = 0;
    for (int i = 0; i < 2; i++) {
        rs_lent = around[i];
        if (rs_realloc(of_host, 50, 200, 8).at != of_host + 1) wrong("a block beside lent memory grows otherwise");
        rs_dealloc(of_host);
    }
    rs_lent = loan;
    if (host.reallocs != 2 || host.deallocs != 2) wrong("a block beside lent memory does not go back to the host");
}

/* The memory that a call is lent: `bytes` bytes from `start` on, between guards. */
static unsigned char memory[1024];
static size_t start, bytes;

/* Takes all blocks of one size, and returns how many there were. Each is inside the memory and begins at a multiple
   of 64. */
static size_t taken(size_t size) {
    size_t number = 0;
    unsigned char *end = memory + start;
    for (;; number++) {
        struct tried block = rs_alloc(size, 16);
        unsigned char *at = block.at;
        if (!at) wrong("NULL as a block");
        if (!block.ok) break;
        if ((uintptr_t)at % 64 || at < end || at + size > memory + start + bytes) wrong("a block lies elsewhere");
        end = at + (size ? size : 1);
        memset(at, 7, size);
        rs_dealloc(at);
    }
    return number;
}

static size_t wanted_size, got_number;

static void takes_all(void) {
    got_number = taken(wanted_size);
}

/* A block of another size has the first bytes of the old one, and a shorter one has no more than fit. A block of
   more bytes than there are is refused, even if its size and the bytes before it exceed SIZE_MAX. */
static void takes_again(void) {
    struct tried block = rs_alloc(65, 1), longer, shorter, none;
    for (int i = 0; i < 65; i++) ((unsigned char *)block.at)[i] = (unsigned char)(i + 1);
    longer = rs_realloc(block.at, 65, 130, 1);
    unsigned char *next = rs_lent.begin + rs_lent.used, *end = rs_lent.begin + rs_lent.length;
    memset(next, '#', (size_t)(end - next));
    shorter = rs_realloc(block.at, 65, 3, 1);
    if (shorter.at != next) wrong("a shorter block lies elsewhere");
    for (next += 3; next < end; next++)
        if (*next != '#') wrong("bytes are written past the end of a shorter block");
    none = rs_realloc(block.at, 65, 1024, 1);
    if (rs_alloc(SIZE_MAX, 1).ok || rs_alloc(SIZE_MAX - 200, 1).ok) wrong("a block of nearly SIZE_MAX bytes");
    if (!block.ok || !longer.ok || !shorter.ok || none.ok || !none.at) wrong("blocks of another size");
    if (memcmp(longer.at, block.at, 65) || memcmp(shorter.at, block.at, 3) || ((unsigned char *)block.at)[64] != 65)
        wrong("a block of another size has other bytes");
}

/* At each place and of each length, a call gets as many blocks as fit, and nothing outside is written. */
static void lengths(void) {
    static const size_t sizes[] = {0, 1, 63, 64, 65, 128, 200};
    does = takes_all;
    for (start = 300; start < 300 + 64; start++)
        for (bytes = 0; bytes < 400; bytes++)
            for (size_t i = 0; i < sizeof sizes / sizeof *sizes; i++) {
                size_t before = (64 - ((uintptr_t)memory + start) % 64) % 64,
                       each = sizes[i] ? (sizes[i] + 63) / 64 * 64 : 64;
                wanted_size = sizes[i];
                memset(memory, '#', sizeof memory);
                if (rs_tables_make_with_work((struct rs_tables *)tables, memory + start, bytes) != ANSWER)
                    wrong("another answer");
                if (got_number != (bytes > before ? (bytes - before) / each : 0)) wrong("another number of blocks");
                for (size_t n = 0; n < sizeof memory; n++)
                    if (memory[n] != '#' && (n < start || n >= start + bytes))
                        wrong("a byte outside the work memory is written");
            }
    if (rs_tables_make_with_work((struct rs_tables *)tables, NULL, 0) != ANSWER || got_number) wrong("no work memory");
}

/* Work memory stays lent in a call that would lend bytes of the stack. */
static void takes_within(void) {
    LEND_STACK;
    if (rs_lent.begin == aligned(stack) || !rs_lent.is_all || taken_back(&loan, ANSWER) != ANSWER)
        wrong("another loan of work memory");
    takes_again();
}

/* Each call with work memory passes its arguments, and its memory comes from there. */
static void each_call(void) {
    start = 300, bytes = 640, calls = 0;
    does = takes_within;
    host.allocs = host.reallocs = host.deallocs = 0;
    if (rs_tables_make_with_work((struct rs_tables *)tables, memory + start, bytes) != ANSWER ||
        rs_encode_with_work(tables, 3, 2, 4, o, 12, q, 8, memory + start, bytes, &fault) != ANSWER ||
        rs_decode_with_work(tables, 3, 2, 4, o, 12, q, 8, m, 5, memory + start, bytes, &fault) != ANSWER ||
        rs_encode_shards_with_work(tables, 3, 2, from, 3, to, 2, memory + start, bytes, &fault) != ANSWER ||
        rs_decode_shards_with_work(tables, 3, 2, own, 1, other, 2, to, 2, memory + start, bytes, &fault) != ANSWER ||
        rs_verify_with_work(tables, 3, 2, own, 1, other, 2, memory + start, bytes, &fault) != ANSWER ||
        rs_reconstruct_with_work(tables, 3, 2, own, 1, other, 2, wanted, 2, to, 2, memory + start, bytes, &fault) !=
            ANSWER ||
        rs_update_with_work(tables, 3, 2, 1, o, 4, q, 8, to, 2, memory + start, bytes, &fault) != ANSWER)
        wrong("another answer");
    if (calls != 8) wrong("another number of calls");
    if (host.allocs || host.reallocs || host.deallocs) wrong("a call with work memory reaches the host's allocator");
}

/* A block of `number` items of `size` bytes. */
static size_t block_of(size_t number, size_t size) {
    return (number * size + 63) / 64 * 64;
}

/* The numbers of the functions for work memory, for the numbers of rows that docs/CALLING.md describes. */
static void numbers(void) {
    /* k, r, rows of an encode, rows of a decode */
    static const size_t rows[][4] = {{1, 1, 1, 2}, {3, 2, 4, 8},        {2, 3, 4, 8},       {5, 4, 8, 16},
                                     {4, 3, 4, 8}, {100, 30, 128, 256}, {30, 100, 128, 256}};
    static const size_t sizes[] = {2, 64, 66, 2048, 2050, 4096, 4098, 100000};
    for (size_t i = 0; i < sizeof rows / sizeof *rows; i++)
        for (size_t n = 0; n < sizeof sizes / sizeof *sizes; n++)
            for (size_t restored = 0; restored < 2; restored++) {
                size_t k = rows[i][0], r = rows[i][1], size = sizes[n], lists = block_of(k, 24) + block_of(r, 24);
                size_t encode = rows[i][2] * block_of(1, size < 4096 ? size : 4096),
                       strip = block_of(1, size < 2048 ? size : 2048);
                size_t coded = block_of(rows[i][3], 1) + block_of(rows[i][3], 2) + rows[i][3] * strip;
                size_t factors = block_of(rows[i][3], 1) + 2 * block_of(rows[i][3], 2);
                size_t summed = factors + block_of(k, 2);
                size_t summed_decode = summed + block_of(k < r ? k : r, 16),
                       vectors = restored * (64 + block_of(1, size));
                size_t decode = lists + (coded < summed_decode ? summed_decode : coded) + vectors;
                size_t rebuilt = block_of(rows[i][3], 1) + coded + rows[i][2] * strip;
                size_t update = factors + block_of(r, 2);
                if (rs_work_bytes(k, r, size, restored) != 63 + (encode < decode ? decode : encode))
                    wrong("another number");
                if (rs_verify_work_bytes(k, r, size) != 63 + lists + (encode < coded ? coded : encode))
                    wrong("another number for rs_verify");
                if (rs_reconstruct_work_bytes(k, r, size, restored) !=
                    63 + lists + block_of(r, 16) + block_of(k, 1) + block_of(r, 1) +
                        (rebuilt < summed ? summed : rebuilt) + vectors)
                    wrong("another number for rs_reconstruct");
                if (rs_update_work_bytes(k, r) != 63 + (update < block_of(r, 16) ? block_of(r, 16) : update))
                    wrong("another number for rs_update");
            }
    if (rs_update_work_bytes(1, 65535) != 63 + 65535 * 16 + 16) wrong("the memory for a copy of the rooms");
    if (rs_tables_work_bytes() != 17432639) wrong("the memory for tables");
}

/* Where there is no number, and where there still is one. */
static void no_numbers(void) {
    const size_t most = SIZE_MAX;
    static const size_t none[][4] = {{0, 1, 2, 0}, {1, 0, 2, 0}, {65536, 1, 2, 0},
                                     {3, 2, 0, 0}, {3, 2, 5, 0}, {3, 2, 4, 4}};
    for (size_t i = 0; i < sizeof none / sizeof *none; i++)
        if (rs_work_bytes(none[i][0], none[i][1], none[i][2], none[i][3]) ||
            rs_reconstruct_work_bytes(none[i][0], none[i][1], none[i][2], none[i][3]) ||
            (!none[i][3] && rs_verify_work_bytes(none[i][0], none[i][1], none[i][2])))
            wrong("a number where there is none");
    if (rs_reconstruct_work_bytes(3, 2, 4, 3) || !rs_reconstruct_work_bytes(3, 2, 4, 2) || rs_update_work_bytes(0, 1) ||
        rs_update_work_bytes(65536, 1))
        wrong("a number where there is none");
    if (rs_work_bytes(3, 2, most - 1, 0) || rs_work_bytes(3, 2, most / 2 + 1, 0) ||
        rs_work_bytes(3, 2, most / 4 + 1, 1) || !rs_work_bytes(3, 2, most / 2 - 1, 0) ||
        rs_work_bytes(3, 2, most / 8 - 1, 3) < most / 8 * 3)
        wrong("the longest shards");
}

int main(void) {
    static const uint64_t any[1];
    tables = (const struct rs_tables *)any;
    without();
    on_stack();
    inside_another();
    beside_lent();
    without();
    lengths();
    each_call();
    without();
    numbers();
    no_numbers();
    puts("lent: each branch of c/work.c and c/sizes.c");
    return 0;
}
