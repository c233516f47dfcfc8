/* The memory of calls. A call whose name ends in _with_work takes each block from the work memory that its caller
   passes. Any other call takes its blocks from a few bytes of the stack, and if these are used up, from the allocator:
   c/heap.c, or the host's own. c/rename makes the proved calls request their blocks here: in their objects,
   rattle_alloc, rattle_realloc and rattle_dealloc become rs_alloc, rs_realloc and rs_dealloc. */
#include "memory.h"
#include "reed_solomon_simd.h"

/* The allocator, as in c/heap.c. */
struct tried rattle_alloc(size_t size, size_t align);
struct tried rattle_realloc(void *old, size_t kept, size_t size, size_t align);
void rattle_dealloc(void *at);
struct tried rs_realloc(void *old, size_t kept, size_t size, size_t align);

FROM_THE_START _Thread_local struct lent rs_lent;

INSIDE(rs_tables_make);
INSIDE(rs_encode);
INSIDE(rs_decode);
INSIDE(rs_encode_shards);
INSIDE(rs_decode_shards);
INSIDE(rs_verify);
INSIDE(rs_reconstruct);
INSIDE(rs_update);

/* Lends work memory to the call that comes next in this thread. Returns the loan of before. */
static struct lent lend(void *work, size_t work_length) {
    const struct lent loan = rs_lent;
    size_t before = (UNIT - (uintptr_t)work % UNIT) % UNIT;
    if (before > work_length) before = work_length;
    rs_lent =
        (struct lent){before ? (unsigned char *)work + before : work, (work_length - before) / UNIT * UNIT, 0, true};
    return loan;
}

/* Whether a block is in the lent memory. */
static bool is_lent(const void *block) {
    return (uintptr_t)block - (uintptr_t)rs_lent.begin < rs_lent.length;
}

/* A block that does not fit into the lent memory. */
static struct tried block_elsewhere(size_t size, size_t align) {
    static unsigned char nowhere;
    return rs_lent.is_all ? (struct tried){false, &nowhere} : rattle_alloc(size, align);
}

/* A block of at least one byte, from the lent memory if it fits there. */
struct tried rs_alloc(size_t size, size_t align) {
    size_t from = rs_lent.used;
    if (!size) size = 1;
    if (size > rs_lent.length - from) return block_elsewhere(size, align);
    rs_lent.used += rounded_up(size, UNIT);
    return (struct tried){true, rs_lent.begin + from};
}

struct tried rs_realloc(void *old, size_t kept, size_t size, size_t align) {
    if (!is_lent(old)) return rattle_realloc(old, kept, size, align);
    struct tried block = rs_alloc(size, align);
    if (block.ok) memcpy(block.at, old, least(kept, size));
    return block;
}

/* The bytes of a block of lent memory serve no other block of the same call. */
void rs_dealloc(void *at) {
    if (!is_lent(at)) rattle_dealloc(at);
}

uint32_t rs_tables_make_with_work(struct rs_tables *tables, void *work, size_t work_length) {
    const struct lent loan = lend(work, work_length);
    return taken_back(&loan, rs_tables_make_inside(tables));
}

uint32_t rs_encode_with_work(const struct rs_tables *tables, size_t original_count, size_t recovery_count,
                             size_t shard_bytes, const uint8_t *originals, size_t originals_length, uint8_t *recovery,
                             size_t recovery_length, void *work, size_t work_length, struct rs_fault *fault) {
    const struct lent loan = lend(work, work_length);
    return taken_back(&loan, rs_encode_inside(tables, original_count, recovery_count, shard_bytes, originals,
                                              originals_length, recovery, recovery_length, fault));
}

uint32_t rs_decode_with_work(const struct rs_tables *tables, size_t original_count, size_t recovery_count,
                             size_t shard_bytes, uint8_t *originals, size_t originals_length, const uint8_t *recovery,
                             size_t recovery_length, const uint8_t *marks, size_t marks_length, void *work,
                             size_t work_length, struct rs_fault *fault) {
    const struct lent loan = lend(work, work_length);
    return taken_back(&loan, rs_decode_inside(tables, original_count, recovery_count, shard_bytes, originals,
                                              originals_length, recovery, recovery_length, marks, marks_length, fault));
}

uint32_t rs_encode_shards_with_work(const struct rs_tables *tables, size_t original_count, size_t recovery_count,
                                    const struct rs_bytes *originals, size_t originals_number,
                                    const struct rs_room *recovery, size_t recovery_number, void *work,
                                    size_t work_length, struct rs_fault *fault) {
    const struct lent loan = lend(work, work_length);
    return taken_back(&loan, rs_encode_shards_inside(tables, original_count, recovery_count, originals,
                                                     originals_number, recovery, recovery_number, fault));
}

uint32_t rs_decode_shards_with_work(const struct rs_tables *tables, size_t original_count, size_t recovery_count,
                                    const struct rs_shard *originals, size_t originals_number,
                                    const struct rs_shard *recovery, size_t recovery_number,
                                    const struct rs_room *restored, size_t restored_number, void *work,
                                    size_t work_length, struct rs_fault *fault) {
    const struct lent loan = lend(work, work_length);
    return taken_back(&loan,
                      rs_decode_shards_inside(tables, original_count, recovery_count, originals, originals_number,
                                              recovery, recovery_number, restored, restored_number, fault));
}

uint32_t rs_verify_with_work(const struct rs_tables *tables, size_t original_count, size_t recovery_count,
                             const struct rs_shard *originals, size_t originals_number, const struct rs_shard *recovery,
                             size_t recovery_number, void *work, size_t work_length, struct rs_fault *fault) {
    const struct lent loan = lend(work, work_length);
    return taken_back(&loan, rs_verify_inside(tables, original_count, recovery_count, originals, originals_number,
                                              recovery, recovery_number, fault));
}

uint32_t rs_reconstruct_with_work(const struct rs_tables *tables, size_t original_count, size_t recovery_count,
                                  const struct rs_shard *originals, size_t originals_number,
                                  const struct rs_shard *recovery, size_t recovery_number,
                                  const struct rs_wanted *wanted, size_t wanted_number, const struct rs_room *rooms,
                                  size_t rooms_number, void *work, size_t work_length, struct rs_fault *fault) {
    const struct lent loan = lend(work, work_length);
    return taken_back(&loan, rs_reconstruct_inside(tables, original_count, recovery_count, originals, originals_number,
                                                   recovery, recovery_number, wanted, wanted_number, rooms,
                                                   rooms_number, fault));
}

uint32_t rs_update_with_work(const struct rs_tables *tables, size_t original_count, size_t recovery_count, size_t index,
                             const uint8_t *before, size_t before_length, const uint8_t *after, size_t after_length,
                             const struct rs_room *recovery, size_t recovery_number, void *work, size_t work_length,
                             struct rs_fault *fault) {
    const struct lent loan = lend(work, work_length);
    return taken_back(&loan, rs_update_inside(tables, original_count, recovery_count, index, before, before_length,
                                              after, after_length, recovery, recovery_number, fault));
}
