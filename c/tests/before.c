/* A program that was linked with the shared object of version 1.2 or before: its rs_fault_text writes no NUL. */
#include "reed_solomon_simd.h"

#include <stdio.h>
#include <string.h>

__asm__(".symver text_before, rs_fault_text@RS_1");
size_t text_before(const struct rs_fault *fault, uint8_t *text, size_t text_length);

int main(void) {
    const struct rs_fault fault = {RS_OUT_OF_MEMORY, 0, 0, 0};
    uint8_t text[14] = "##############";
    char now[14] = "#############";
    if (text_before(&fault, text, sizeof text) != 13 || memcmp(text, "out of memory#", 14)) return 1;
    if (rs_fault_text(&fault, now, sizeof now) != 13 || strcmp(now, "out of memory")) return 1;
    puts("before: programs of earlier versions get texts without a NUL");
    return 0;
}
