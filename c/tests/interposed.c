/* The shared object, whose path is the word, in a program that has functions with names of the library:
   c/tests/own_names.c, or the whole static library, with its names exported as a host of plugins exports them. The
   calls of the shared object do not reach the program's functions. */
#include "reed_solomon_simd.h"

#include <stdio.h>
#include <stdlib.h>
#include <string.h>

static void wrong(const char *what) {
    printf("interposed: %s\n", what);
    exit(1);
}

#include "symbols.h"

#define CALL(name) __typeof__(name) *name##_of = (__typeof__(name) *)(uintptr_t)call(library, #name)

int main(int count, char **words) {
    static const uint8_t originals[6] = {2, 0, 0, 0, 4, 0};
    static uint8_t recovery[4], lost[6] = {0, 0, 0, 0, 4, 0}, marks[5] = {0, 0, 1, 1, 1};
    void *library = count == 2 ? dlopen(words[1], RTLD_NOW) : NULL;
    if (!library) wrong("no library");
    CALL(rs_tables_bytes);
    CALL(rs_tables_make_with_work);
    CALL(rs_tables_work_bytes);
    CALL(rs_encode_with_work);
    CALL(rs_decode_with_work);
    CALL(rs_work_bytes);
    struct rs_tables *tables = malloc(rs_tables_bytes_of());
    size_t length = rs_tables_work_bytes_of();
    void *work = malloc(length);
    if (!tables || !work || rs_tables_make_with_work_of(tables, work, length)) wrong("no tables");
    if (rs_encode_with_work_of(tables, 3, 2, 2, originals, 6, recovery, 4, NULL, 0, NULL) != RS_OUT_OF_MEMORY)
        wrong("an encode without work memory does something else");
    if (rs_encode_with_work_of(tables, 3, 2, 2, originals, 6, recovery, 4, work, length, NULL) ||
        memcmp(recovery, "\3\0\5\0", 4))
        wrong("an encode writes something else");
    if (rs_decode_with_work_of(tables, 3, 2, 2, lost, 6, recovery, 4, marks, 5, work, length, NULL) ||
        memcmp(lost, originals, 6))
        wrong("a decode writes something else");
    if (!rs_work_bytes_of(3, 2, 2, 0)) wrong("no number of bytes");
    free(tables);
    free(work);
    puts("interposed: a program with names of the library");
    return 0;
}
