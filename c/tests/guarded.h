/* Work memory between guards, for tests of calls with work memory. Include c/tests/helpers.h before this file. */
enum { GUARD = 256 };
static unsigned char *area;
static size_t area_length;

/* `length` bytes of work memory that begin `offset` bytes after a multiple of 64. */
static unsigned char *guarded(size_t offset, size_t length) {
    area_length = offset + length + 3 * GUARD;
    area = room(area_length);
    memset(area, '#', area_length);
    return area + GUARD + (64 - (uintptr_t)area % 64) % 64 + offset;
}

static void check_guards(const unsigned char *work, size_t length) {
    for (const unsigned char *at = area; at < area + area_length; at++)
        if (*at != '#' && (at < work || at >= work + length)) wrong("a byte outside the work memory is written");
}
