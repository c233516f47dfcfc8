/* The shared object, opened by dlopen: the first call of a thread with work memory requests nothing from malloc. The
   word is the path of the shared object. */
#include "counted.h"
#include "reed_solomon_simd.h"

#include <pthread.h>
#include <stdio.h>
#include <stdlib.h>

static struct rs_tables *tables;
static __typeof__(rs_encode_with_work) *encode;
static unsigned char work[1 << 16];

static void wrong(const char *what) {
    printf("opened: %s\n", what);
    exit(1);
}

#include "symbols.h"

static void *first_call(void *recovery) {
    static const uint8_t originals[6] = {2, 0, 0, 0, 4, 0};
    uint32_t answer = encode(tables, 3, 2, 2, originals, 6, recovery, 4, work, sizeof work, NULL);
    if (answer || requests) wrong("the first call of a thread requests memory from malloc");
    return NULL;
}

int main(int count, char **words) {
    static uint8_t recovery[4];
    void *library = count == 2 ? dlopen(words[1], RTLD_NOW) : NULL, *make, *bytes;
    pthread_t other;
    if (!library) wrong("no library");
    make = call(library, "rs_tables_make"), bytes = call(library, "rs_tables_bytes");
    *(void **)&encode = call(library, "rs_encode_with_work");
    tables = malloc((*(__typeof__(rs_tables_bytes) **)&bytes)());
    if (!tables || (*(__typeof__(rs_tables_make) **)&make)(tables)) wrong("no tables");
    if (pthread_create(&other, NULL, first_call, recovery)) wrong("no thread");
    pthread_join(other, NULL);
    if (memcmp(recovery, "\3\0\5\0", 4)) wrong("other recovery shards");
    puts("opened: a first call with work memory");
    return 0;
}
