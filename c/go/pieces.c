#include "pieces.h"

#include <stdlib.h>

/* The piece of the shard with this index in a buffer. */
static uint8_t *at(const struct reedsolomon_piece *piece, uint8_t *buffer, size_t index) {
    return buffer ? buffer + index * piece->shard_bytes + piece->from : NULL;
}

/* The rooms for the shards of a buffer. */
static void place(const struct reedsolomon_piece *piece, uint8_t *buffer, struct rs_room *rooms, size_t count) {
    for (size_t i = 0; i < count; i++) rooms[i] = (struct rs_room){at(piece, buffer, i), piece->to - piece->from};
}

static uint32_t out_of_memory(struct rs_fault *fault) {
    *fault = (struct rs_fault){RS_OUT_OF_MEMORY, 0, 0, 0};
    return RS_OUT_OF_MEMORY;
}

/* How many bytes the arrays of a call have. */
static size_t array_bytes(const struct reedsolomon_piece *piece, enum reedsolomon_task task) {
    size_t k = piece->original_count, r = piece->recovery_count;
    if (task == REEDSOLOMON_ENCODE) return k * sizeof(struct rs_bytes) + r * sizeof(struct rs_room);
    if (task == REEDSOLOMON_UPDATE) return r * sizeof(struct rs_room);
    return (k + r) * (sizeof(struct rs_shard) + sizeof(struct rs_room) + sizeof(struct rs_wanted));
}

/* How many bytes of work memory a call of the C library needs. */
static size_t work_bytes(const struct reedsolomon_piece *piece, enum reedsolomon_task task, size_t restored) {
    size_t k = piece->original_count, r = piece->recovery_count, length = piece->to - piece->from;
    if (task == REEDSOLOMON_VERIFY) return rs_verify_work_bytes(k, r, length);
    if (task == REEDSOLOMON_RECONSTRUCT) return rs_reconstruct_work_bytes(k, r, length, restored);
    if (task == REEDSOLOMON_UPDATE) return rs_update_work_bytes(k, r);
    return rs_work_bytes(k, r, length, restored);
}

int reedsolomon_reserve(struct reedsolomon_piece *piece, enum reedsolomon_task task, size_t restored) {
    piece->memory_length = array_bytes(piece, task) + work_bytes(piece, task, restored);
    piece->memory = malloc(piece->memory_length);
    return piece->memory != NULL;
}

void reedsolomon_release(struct reedsolomon_piece *piece) {
    free(piece->memory);
    piece->memory = NULL;
}

/* The arrays of a call are the first bytes of the piece's memory. A piece without memory gets them from malloc. */
static void *arrays_of(const struct reedsolomon_piece *piece, enum reedsolomon_task task) {
    return piece->memory ? piece->memory : malloc(array_bytes(piece, task));
}

static void give_back(const struct reedsolomon_piece *piece, void *arrays) {
    if (!piece->memory) free(arrays);
}

/* The work memory of a piece is the rest of its memory. */
struct work {
    void *at;
    size_t length;
};

static struct work work_of(const struct reedsolomon_piece *piece, enum reedsolomon_task task) {
    size_t arrays = array_bytes(piece, task);
    if (!piece->memory) return (struct work){NULL, 0};
    return (struct work){piece->memory + arrays, piece->memory_length - arrays};
}

/* Makes a call of the C library: with work memory, if there is some. */
#define CALLED(call, ...) \
    (work.at ? call##_with_work(__VA_ARGS__, work.at, work.length, fault) : call(__VA_ARGS__, fault))

uint32_t reedsolomon_encode(const struct rs_tables *tables, const struct reedsolomon_piece *piece, uint8_t *originals,
                            uint8_t *recovery, struct rs_fault *fault) {
    size_t k = piece->original_count, r = piece->recovery_count;
    size_t size = piece->shard_bytes, length = piece->to - piece->from;
    /* Whole shards need no arrays. */
    if (!piece->memory) return rs_encode(tables, k, r, size, originals, k * size, recovery, r * size, fault);
    struct work work = work_of(piece, REEDSOLOMON_ENCODE);
    struct rs_bytes *given = (struct rs_bytes *)piece->memory;
    struct rs_room *rooms = (struct rs_room *)(given + k);
    for (size_t i = 0; i < k; i++) given[i] = (struct rs_bytes){at(piece, originals, i), length};
    place(piece, recovery, rooms, r);
    return CALLED(rs_encode_shards, tables, k, r, given, k, rooms, r);
}

/* The arrays of a call over received shards, and how many entries each of them has. The arrays of shards are those of
 * the originals and of the recovery shards. */
struct arrays {
    struct rs_shard *shards[2];
    struct rs_room *rooms;
    struct rs_wanted *names;
    size_t received[2], wanted;
};

static void fill(struct arrays *a, const struct reedsolomon_piece *piece, uint8_t *buffers[2], const uint8_t *marks,
                 const uint8_t *wanted, uint8_t *other) {
    size_t k = piece->original_count, length = piece->to - piece->from;
    for (size_t i = 0; i < k + piece->recovery_count; i++) {
        size_t kind = i >= k, index = kind ? i - k : i;
        uint8_t *bytes = at(piece, buffers[kind], index);
        if (marks[i]) a->shards[kind][a->received[kind]++] = (struct rs_shard){index, bytes, length};
        if (!wanted || !wanted[i]) continue;
        a->rooms[a->wanted] = (struct rs_room){other ? at(piece, other, a->wanted) : bytes, length};
        a->names[a->wanted++] = (struct rs_wanted){kind, index};
    }
}

static uint32_t done(const struct rs_tables *tables, enum reedsolomon_task task, const struct reedsolomon_piece *piece,
                     const struct arrays *a, struct rs_fault *fault) {
    size_t k = piece->original_count, r = piece->recovery_count;
    const struct rs_shard *own = a->shards[0], *other = a->shards[1];
    size_t own_number = a->received[0], other_number = a->received[1], wanted = a->wanted;
    struct work work = work_of(piece, task);
    if (task == REEDSOLOMON_VERIFY) return CALLED(rs_verify, tables, k, r, own, own_number, other, other_number);
    if (task == REEDSOLOMON_DECODE)
        return CALLED(rs_decode_shards, tables, k, r, own, own_number, other, other_number, a->rooms, wanted);
    return CALLED(rs_reconstruct, tables, k, r, own, own_number, other, other_number, a->names, wanted, a->rooms,
                  wanted);
}

uint32_t reedsolomon_received(const struct rs_tables *tables, const struct reedsolomon_piece *piece,
                              enum reedsolomon_task task, uint8_t *originals, uint8_t *recovery, const uint8_t *marks,
                              const uint8_t *wanted, uint8_t *other, struct rs_fault *fault) {
    size_t k = piece->original_count, r = piece->recovery_count;
    struct rs_shard *shards = arrays_of(piece, task);
    if (!shards) return out_of_memory(fault);
    struct rs_room *rooms = (struct rs_room *)(shards + k + r);
    struct arrays a = {{shards, shards + k}, rooms, (struct rs_wanted *)(rooms + k + r), {0, 0}, 0};
    fill(&a, piece, (uint8_t *[2]){originals, recovery}, marks, wanted, other);
    uint32_t answer = done(tables, task, piece, &a, fault);
    give_back(piece, shards);
    return answer;
}

uint32_t reedsolomon_update(const struct rs_tables *tables, const struct reedsolomon_piece *piece, size_t index,
                            const uint8_t *before, const uint8_t *after, size_t after_length, uint8_t *recovery,
                            struct rs_fault *fault) {
    size_t k = piece->original_count, r = piece->recovery_count, length = piece->to - piece->from;
    struct rs_room *rooms = arrays_of(piece, REEDSOLOMON_UPDATE);
    if (!rooms) return out_of_memory(fault);
    struct work work = work_of(piece, REEDSOLOMON_UPDATE);
    place(piece, recovery, rooms, r);
    if (piece->from) before += piece->from, after += piece->from;
    if (after_length == piece->shard_bytes) after_length = length;
    uint32_t answer = CALLED(rs_update, tables, k, r, index, before, length, after, after_length, rooms, r);
    give_back(piece, rooms);
    return answer;
}
