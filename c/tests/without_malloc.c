/* The example of docs/C.md for work memory: messages are encoded without a request to malloc, and each one comes back.
 */
#include "counted.h"
#include "reed_solomon_simd.h"

#include <stdio.h>
#include <stdlib.h>

enum { K = 10, R = 4, SIZE = 1024, WORK = 32 * 1024 };
static struct rs_tables tables;
static uint8_t originals[K * SIZE], recovery[R * SIZE], work[WORK];

static int messages;

/* Fills in the next message. Returns 0 after the last one. */
static int next_message(uint8_t *message) {
    for (int i = 0; i < K * SIZE; i++) message[i] = (uint8_t)((i + 1) * 2654435761u >> (11 + messages));
    return messages++ < 5;
}

/* Takes the recovery shards of a message, which restore the first four originals. */
static void store(const uint8_t *shards) {
    static uint8_t restored[K * SIZE], marks[K + R];
    memcpy(restored, originals, sizeof restored);
    memset(restored, '?', R * SIZE);
    memset(marks + R, 1, K);
    if (rs_decode_with_work(&tables, K, R, SIZE, restored, K * SIZE, shards, R * SIZE, marks, K + R, work, WORK,
                            NULL) ||
        memcmp(restored, originals, sizeof restored))
        exit(1);
}

/* Encodes one message after the other. No call requests memory from malloc. */
static int encode_all(void) {
    if (rs_work_bytes(K, R, SIZE, 0) > WORK) return 1;
    while (next_message(originals)) {
        if (rs_encode_with_work(&tables, K, R, SIZE, originals, K * SIZE, recovery, R * SIZE, work, WORK, NULL))
            return 1;
        store(recovery);
    }
    return 0;
}

int main(void) {
    long before;
    if (rs_tables_make(&tables)) return 1;
    before = requests;
    if (encode_all() || requests != before || messages != 6) return 1;
    puts("without_malloc: five messages");
    return 0;
}
