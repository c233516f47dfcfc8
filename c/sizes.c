/* How many bytes of work memory are enough for each call whose name ends in _with_work. These numbers follow from the
   requests that the proved calls make. c/tests/work.c compares them with what the calls take. */
#include "memory.h"
#include "reed_solomon_simd.h"

INSIDE(rs_supports);

static size_t greatest(size_t one, size_t other) {
    return one > other ? one : other;
}

/* The least power of two that is not below the count. */
static size_t power(size_t count) {
    size_t power = 1;
    while (power < count) power *= 2;
    return power;
}

/* The bytes that a number of items take as a block. */
static size_t block_bytes(size_t number, size_t bytes) {
    return rounded_up(number * bytes, UNIT);
}

/* How many rows an encode and a decode have, and the bytes of two lists of references to all shards. */
struct shape {
    size_t encoder_rows, decoder_rows, lists;
};

static struct shape shape_of(size_t original_count, size_t recovery_count) {
    size_t low = power(original_count), high = power(recovery_count);
    bool is_low = low < high || (low == high && original_count > recovery_count);
    size_t rows = is_low ? low : high, others = is_low ? recovery_count : original_count;
    return (struct shape){rounded_up(others, rows), power(rows + others),
                          block_bytes(original_count, 24) + block_bytes(recovery_count, 24)};
}

/* The bytes of a number of rows, if a strip has at most `strip` bytes of each shard. */
static size_t row_bytes(size_t rows, size_t shard_bytes, size_t strip) {
    return rows * block_bytes(1, least(shard_bytes, strip));
}

/* The bytes of vectors for restored shards. */
static size_t restored_bytes(size_t restored, size_t shard_bytes) {
    return block_bytes(restored, 24) + restored * block_bytes(1, shard_bytes);
}

/* A decode requests marks and factors for each of its rows, and the rows. */
static size_t coded_bytes(struct shape shape, size_t shard_bytes) {
    return block_bytes(shape.decoder_rows, 1) + block_bytes(shape.decoder_rows, 2) +
           row_bytes(shape.decoder_rows, shard_bytes, 2048);
}

/* What the factors of sums are made of: a mark and two numbers for each row. */
static size_t factor_bytes(struct shape shape) {
    return block_bytes(shape.decoder_rows, 1) + 2 * block_bytes(shape.decoder_rows, 2);
}

/* A decode from syndromes requests the rows of an encode, what the factors are made of, further marks for each row of a
   decode, a list of the lost originals, and a list of the rows of as many recovery shards. At least eight are lost. */
static size_t syndrome_bytes(struct shape shape, size_t shard_bytes, size_t lost) {
    if (lost < 8) return 0;
    return row_bytes(shape.encoder_rows, shard_bytes, 2048) + factor_bytes(shape) + block_bytes(shape.decoder_rows, 1) +
           block_bytes(lost, 16) + block_bytes(lost, 2);
}

/* A call that sums shards has no rows. It requests what the factors are made of, and a list of the rows that it sums. */
static size_t summed_bytes(struct shape shape, size_t original_count) {
    return factor_bytes(shape) + block_bytes(original_count, 2);
}

/* Whether there are calls with these counts, this size, and this number of restored shards, whose memory can be
   counted. */
static bool is_counted(size_t original_count, size_t recovery_count, size_t shard_bytes, size_t restored) {
    return rs_supports_inside(original_count, recovery_count) && shard_bytes && shard_bytes % 2 == 0 &&
           shard_bytes <= SIZE_MAX / 2 / (restored + 1);
}

/* An encode requests its rows. For some counts, a build that reads originals where they are requests fewer. A decode
   requests the lists. It also requests its rows, or what syndromes need, or, if few shards are lost, what sums need with
   16 bytes for each lost shard. The rows take most, with two exceptions: sums need more for one original and one
   recovery shard of at most 64 bytes, and syndromes can need more for many short shards, if an encode has nearly as many
   rows as a decode. */
size_t rs_work_bytes(size_t original_count, size_t recovery_count, size_t shard_bytes, size_t restored) {
    if (!is_counted(original_count, recovery_count, shard_bytes, restored) || restored > original_count) return 0;
    struct shape shape = shape_of(original_count, recovery_count);
    size_t lost = least(original_count, recovery_count);
    size_t summed = summed_bytes(shape, original_count) + block_bytes(lost, 16);
    size_t sums = greatest(summed, syndrome_bytes(shape, shard_bytes, lost));
    size_t decode = greatest(coded_bytes(shape, shard_bytes), sums);
    return greatest(row_bytes(shape.encoder_rows, shard_bytes, 4096),
                    shape.lists + decode + restored_bytes(restored, shard_bytes)) +
           UNIT - 1;
}

/* rs_verify requests the lists, and the rows of an encode or of a decode, or what sums need, which is less. */
size_t rs_verify_work_bytes(size_t original_count, size_t recovery_count, size_t shard_bytes) {
    if (!is_counted(original_count, recovery_count, shard_bytes, 0)) return 0;
    struct shape shape = shape_of(original_count, recovery_count);
    return shape.lists + greatest(row_bytes(shape.encoder_rows, shard_bytes, 4096), coded_bytes(shape, shard_bytes)) +
           UNIT - 1;
}

/* rs_reconstruct requests the lists, a list of the wanted shards, marks for all shards, and either what sums need, or
   the rows of a decode and, if a recovery shard is wanted, of an encode. */
size_t rs_reconstruct_work_bytes(size_t original_count, size_t recovery_count, size_t shard_bytes, size_t restored) {
    if (!is_counted(original_count, recovery_count, shard_bytes, restored) || restored > recovery_count) return 0;
    struct shape shape = shape_of(original_count, recovery_count);
    size_t wanted = block_bytes(recovery_count, 16) + block_bytes(original_count, 1) + block_bytes(recovery_count, 1);
    size_t coded = block_bytes(shape.decoder_rows, 1) + coded_bytes(shape, shard_bytes) +
                   row_bytes(shape.encoder_rows, shard_bytes, 2048);
    return shape.lists + wanted + greatest(coded, summed_bytes(shape, original_count)) +
           restored_bytes(restored, shard_bytes) + UNIT - 1;
}

/* rs_update requests what factors are made of, and the factors of the recovery shards. Before that, it can request a
   copy of the rooms. */
size_t rs_update_work_bytes(size_t original_count, size_t recovery_count) {
    if (!rs_supports_inside(original_count, recovery_count)) return 0;
    struct shape shape = shape_of(original_count, recovery_count);
    return greatest(factor_bytes(shape) + block_bytes(recovery_count, 2), block_bytes(recovery_count, 16)) +
           UNIT - 1;
}

/* rs_tables_make requests tables of powers, of logarithms, of factors and of transforms, and the products twice. */
size_t rs_tables_work_bytes(void) {
    return block_bytes(65536, 2) + block_bytes(65536, 2) + block_bytes(65535, 2) + block_bytes(131071, 2) +
           2 * block_bytes(65536, 128) + UNIT - 1;
}
