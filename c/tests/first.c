#include <reed_solomon_simd.h>
#include <stdio.h>
#include <stdlib.h>

int main(void) {
    struct rs_tables *tables = calloc(1, sizeof *tables);
    uint8_t originals[] = "Three shards of one size are coded.."; /* three shards of twelve bytes */
    uint8_t recovery[24], marks[5] = {0, 1, 0, 1, 1};             /* originals 0 and 2 get lost */
    struct rs_fault fault;
    if (!tables || rs_tables_make(tables)) return 1;
    if (rs_encode(tables, 3, 2, 12, originals, 36, recovery, 24, &fault)) return 1;
    for (int i = 0; i < 12; i++) originals[i] = originals[24 + i] = '?';
    if (rs_decode(tables, 3, 2, 12, originals, 36, recovery, 24, marks, 5, &fault)) return 1;
    puts((char *)originals);
    free(tables);
}
