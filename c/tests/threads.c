/* One message is encoded by four threads, each of which encodes a piece of all shards. The result is that of one call
   for the whole shards. */
#include <pthread.h>
#include <reed_solomon_simd.h>
#include <stdio.h>
#include <stdlib.h>
#include <string.h>

enum { K = 10, R = 4, SIZE = 100000, THREADS = 4 };

struct job {
    const struct rs_tables *tables;
    uint8_t *originals, *recovery; /* shard i begins at byte i * SIZE */
    size_t from, to;
};

/* Encodes the bytes from `from` up to `to` of all shards. */
static void *encode_piece(void *of) {
    const struct job *job = of;
    struct rs_bytes originals[K];
    struct rs_room recovery[R];
    for (size_t i = 0; i < K; i++)
        originals[i].bytes = job->originals + i * SIZE + job->from, originals[i].length = job->to - job->from;
    for (size_t i = 0; i < R; i++)
        recovery[i].bytes = job->recovery + i * SIZE + job->from, recovery[i].length = job->to - job->from;
    return rs_encode_shards(job->tables, K, R, originals, K, recovery, R, NULL) ? of : NULL;
}

int main(void) {
    const size_t piece = (SIZE / THREADS + 63) / 64 * 64; /* each piece but the last is a multiple of 64 bytes long */
    struct rs_tables *tables = malloc(sizeof *tables);
    uint8_t *originals = malloc(K * SIZE), *recovery = malloc(R * SIZE), *whole = malloc(R * SIZE);
    pthread_t threads[THREADS];
    struct job jobs[THREADS];
    if (!tables || !originals || !recovery || !whole || rs_tables_make(tables)) return 1;
    for (size_t i = 0; i < K * SIZE; i++) originals[i] = (uint8_t)(i * 2654435761u >> 13);
    for (size_t i = 0; i < THREADS; i++) {
        struct job job = {tables, originals, recovery, i * piece, i + 1 < THREADS ? (i + 1) * piece : SIZE};
        jobs[i] = job;
        if (pthread_create(&threads[i], NULL, encode_piece, &jobs[i])) return 1;
    }
    for (size_t i = 0; i < THREADS; i++) {
        void *failed;
        if (pthread_join(threads[i], &failed) || failed) return 1;
    }
    if (rs_encode(tables, K, R, SIZE, originals, K * SIZE, whole, R * SIZE, NULL)) return 1;
    if (memcmp(recovery, whole, R * SIZE)) return 1;
    puts("threads: four threads encode one message");
    free(tables);
    free(originals);
    free(recovery);
    free(whole);
    return 0;
}
