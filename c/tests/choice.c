/* The first calls of a process, by several threads at once: each of them finds the build that fits. */
#define _POSIX_C_SOURCE 200809L
#include "reed_solomon_simd.h"

#include <pthread.h>
#include <stdio.h>
#include <stdlib.h>
#include <string.h>

enum { THREADS = 4 };
static pthread_barrier_t all_there;
static struct rs_tables *tables[THREADS];

static void *first_call(void *mine) {
    pthread_barrier_wait(&all_there);
    return rs_tables_make(mine) ? mine : NULL;
}

int main(void) {
    pthread_t threads[THREADS];
    if (pthread_barrier_init(&all_there, NULL, THREADS)) return 1;
    for (int i = 0; i < THREADS; i++) {
        tables[i] = calloc(1, sizeof **tables);
        if (!tables[i] || pthread_create(&threads[i], NULL, first_call, tables[i])) return 1;
    }
    for (int i = 0; i < THREADS; i++) {
        void *failed;
        pthread_join(threads[i], &failed);
        if (failed || memcmp(tables[i], tables[0], sizeof **tables)) return 1;
    }
    for (int i = 0; i < THREADS; i++) free(tables[i]);
    puts("choice: threads whose first calls come at once");
    return 0;
}
