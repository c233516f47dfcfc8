/* The functions of the proved code have tables for unwinding: an allocator of the program, which the library calls, can
   walk back through the library to `main`. */
#define _DEFAULT_SOURCE
#include "../memory.h"
#include "reed_solomon_simd.h"

#include <stdio.h>
#include <stdlib.h>
#include <unwind.h>

struct tried rattle_alloc(size_t size, size_t align);
struct tried rattle_realloc(void *old, size_t kept, size_t size, size_t align);
void rattle_dealloc(void *at);
int main(void);

static int walks, reached;

static _Unwind_Reason_Code step(struct _Unwind_Context *context, void *found) {
    if (_Unwind_GetRegionStart(context) == (uintptr_t)main) *(int *)found = 1;
    return _URC_NO_REASON;
}

struct tried rattle_alloc(size_t size, size_t align) {
    int found = 0;
    _Unwind_Backtrace(step, &found);
    walks++;
    reached += found;
    struct tried tried = {true, aligned_alloc(64, (size + align + 63) / 64 * 64)};
    return tried;
}

/* No call of this test makes a block larger. */
struct tried rattle_realloc(void *old, size_t kept, size_t size, size_t align) {
    struct tried none = {false, old};
    (void)kept, (void)size, (void)align;
    return none;
}

void rattle_dealloc(void *at) {
    free(at);
}

int main(void) {
    enum { K = 10, R = 4, SIZE = 5000 };
    static uint8_t originals[K * SIZE], recovery[R * SIZE], marks[K + R];
    struct rs_tables *tables = malloc(sizeof *tables);
    if (!tables || rs_tables_make(tables) ||
        rs_encode(tables, K, R, SIZE, originals, sizeof originals, recovery, sizeof recovery, NULL))
        return 1;
    for (size_t i = R; i < K + R; i++) marks[i] = 1;
    if (rs_decode(tables, K, R, SIZE, originals, sizeof originals, recovery, sizeof recovery, marks, sizeof marks,
                  NULL))
        return 1;
    free(tables);
    if (walks < 3 || reached != walks) {
        printf("backtrace: %d of %d walks reach main\n", reached, walks);
        return 1;
    }
    printf("backtrace: %d walks through the library reach main\n", walks);
    return 0;
}
