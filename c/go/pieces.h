/* Calls of the C library over a piece of every shard of a message. The shards lie in buffers, one after the other. The
 * C library takes arrays of pointers to shards, and Go passes no arrays of pointers to its own memory. So these arrays
 * are made here, in memory of C. */
#ifndef REEDSOLOMON_PIECES_H
#define REEDSOLOMON_PIECES_H

#include <reed_solomon_simd.h>

/* The bytes from `from` up to `to` of every shard. A shard has shard_bytes bytes. A piece that is a part of the shards
 * has all memory of its call. A call over whole shards allocates, and `memory` is NULL. */
struct reedsolomon_piece {
    size_t original_count, recovery_count, shard_bytes, from, to;
    unsigned char *memory;
    size_t memory_length;
};

enum reedsolomon_task {
    REEDSOLOMON_ENCODE,
    REEDSOLOMON_VERIFY,
    REEDSOLOMON_DECODE,
    REEDSOLOMON_RECONSTRUCT,
    REEDSOLOMON_UPDATE
};

/* Allocates all memory of a call over this piece. If more shards are received than there are originals, the call
 * restores `restored` shards, and otherwise `restored` is 0. Returns 0 if there is too little memory. */
int reedsolomon_reserve(struct reedsolomon_piece *piece, enum reedsolomon_task task, size_t restored);

/* Frees this memory. */
void reedsolomon_release(struct reedsolomon_piece *piece);

uint32_t reedsolomon_encode(const struct rs_tables *tables, const struct reedsolomon_piece *piece, uint8_t *originals,
                            uint8_t *recovery, struct rs_fault *fault);

/* `marks` has a byte for each original and then for each recovery shard: 0 if the shard was not received. `wanted` has
 * such bytes, too: 0 if the shard is not wanted. Wanted shards are written to their places. If `other` is not NULL,
 * they are written to it instead, one after the other. */
uint32_t reedsolomon_received(const struct rs_tables *tables, const struct reedsolomon_piece *piece,
                              enum reedsolomon_task task, uint8_t *originals, uint8_t *recovery, const uint8_t *marks,
                              const uint8_t *wanted, uint8_t *other, struct rs_fault *fault);

/* The shards have as many bytes as `before`. If `after` has another length, the piece must be the whole shards. */
uint32_t reedsolomon_update(const struct rs_tables *tables, const struct reedsolomon_piece *piece, size_t index,
                            const uint8_t *before, const uint8_t *after, size_t after_length, uint8_t *recovery,
                            struct rs_fault *fault);

#endif
