/* split FILE writes the parts FILE.0 to FILE.8. join FILE TO restores the file from any six of them. */
#include <reed_solomon_simd.h>
#include <stdio.h>
#include <stdlib.h>
#include <string.h>

enum { K = 6, R = 3 };
static struct rs_tables tables;

static FILE *open_part(const char *name, int index, const char *mode) {
    char path[4096];
    return (size_t)snprintf(path, sizeof path, "%s.%d", name, index) < sizeof path ? fopen(path, mode) : NULL;
}

/* Each part is the length of the file as 8 bytes, and then a shard. */
static int split(const char *name) {
    FILE *file = fopen(name, "rb");
    if (!file || fseek(file, 0, SEEK_END)) return 1;
    uint64_t length = (uint64_t)ftell(file);
    size_t size = rs_shard_bytes(length, K);
    uint8_t *shards = calloc(K + R, size); /* zeros fill the last originals */
    rewind(file);
    if (!shards || fread(shards, 1, length, file) != length) return 1;
    fclose(file);
    if (rs_encode(&tables, K, R, size, shards, K * size, shards + K * size, R * size, NULL)) return 1;
    for (int i = 0; i < K + R; i++) {
        FILE *part = open_part(name, i, "wb");
        if (!part || fwrite(&length, sizeof length, 1, part) != 1) return 1;
        if (fwrite(shards + i * size, size, 1, part) != 1 || fclose(part)) return 1;
    }
    free(shards);
    return 0;
}

static int join(const char *name, const char *to) {
    uint64_t length = 0, own;
    size_t size = 0;
    uint8_t *shards = NULL, marks[K + R] = {0};
    for (int i = 0; i < K + R; i++) {
        FILE *part = open_part(name, i, "rb");
        if (!part) continue; /* the part is lost */
        if (fread(&own, sizeof own, 1, part) == 1 && (!shards || own == length)) {
            if (!shards) length = own, size = rs_shard_bytes(length, K), shards = calloc(K + R, size);
            marks[i] = shards && fread(shards + i * size, size, 1, part) == 1;
        }
        fclose(part);
    }
    struct rs_fault fault = {RS_NOT_ENOUGH_SHARDS, 0, 0, 0};
    if (!shards || rs_decode(&tables, K, R, size, shards, K * size, shards + K * size, R * size, marks, K + R, &fault)) {
        fprintf(stderr, "%s\n", rs_status_name(fault.number));
        return 1;
    }
    FILE *file = fopen(to, "wb");
    if (!file || fwrite(shards, 1, length, file) != length || fclose(file)) return 1;
    free(shards);
    return 0;
}

int main(int count, char **words) {
    if (rs_tables_make(&tables)) return 1;
    if (count == 3 && !strcmp(words[1], "split")) return split(words[2]);
    if (count == 4 && !strcmp(words[1], "join")) return join(words[2], words[3]);
    fputs("split FILE, or join FILE TO\n", stderr);
    return 2;
}
