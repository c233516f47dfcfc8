/* Calls with work memory over received shards, and updates, over the library. For many counts, sizes and choices of
   shards, each call succeeds with as many bytes as its function for work memory returns, at any address. It requests
   nothing from malloc, writes nothing outside the work memory and its results, and makes the right bytes. With one byte
   less than it needs, it fails, and writes nothing but the fault. With the word `few` the counts are small. */
#define _DEFAULT_SOURCE
#include "counted.h"
#define TEST "work_received"
#include "helpers.h"

#include "guarded.h"

enum call { VERIFY, RECONSTRUCT, UPDATE };

/* A message, its recovery shards, and those after its last original has changed. The shards that a call gets, and those
   that it has to write: `right`, whose rooms are in `written`. */
struct message {
    size_t k, r, size, own_number, other_number, wanted_number;
    uint8_t *originals, *recovery, *changed, *updated, *written, *before, *right;
    struct rs_shard *own, *other;
    struct rs_wanted *wanted;
    struct rs_room *rooms;
};

static void encoded(size_t k, size_t r, size_t size, const uint8_t *originals, uint8_t *recovery) {
    if (rs_encode(tables, k, r, size, originals, k * size, recovery, r * size, NULL)) wrong("an encode fails");
}

static struct message made(size_t k, size_t r, size_t size) {
    struct message m = {0};
    uint64_t state = 88172645463325252u + k + 7 * r + 49 * size;
    m.k = k, m.r = r, m.size = size;
    m.originals = room(k * size), m.recovery = room(r * size), m.changed = room(k * size), m.updated = room(r * size);
    m.written = room((k + r) * size), m.right = room((k + r) * size), m.before = room((k + r) * size);
    m.own = room(k * sizeof *m.own), m.other = room(r * sizeof *m.other);
    m.wanted = room((k + r) * sizeof *m.wanted), m.rooms = room((k + r) * sizeof *m.rooms);
    for (size_t i = 0; i < k * size; i++) m.originals[i] = (uint8_t)(drawn(&state) >> 56);
    memcpy(m.changed, m.originals, k * size);
    for (size_t i = (k - 1) * size; i < k * size; i++) m.changed[i] = (uint8_t)(drawn(&state) >> 56);
    encoded(k, r, size, m.originals, m.recovery);
    encoded(k, r, size, m.changed, m.updated);
    return m;
}

static struct rs_shard shard(const uint8_t *shards, size_t index, size_t size) {
    struct rs_shard shard = {index, shards + index * size, size};
    return shard;
}

/* Adds a wanted shard, and the bytes that it has to get. */
static void want(struct message *m, enum rs_kind kind, size_t index) {
    const uint8_t *shards = kind == RS_ORIGINAL ? m->originals : m->recovery;
    size_t place = m->wanted_number++;
    m->wanted[place].kind = kind, m->wanted[place].index = index;
    memcpy(m->right + place * m->size, shards + index * m->size, m->size);
}

/* The first originals are lost, and the first recovery shards are there: as many as are lost, and a surplus. All other
   shards are wanted. */
static void lose(struct message *m, size_t lost, size_t surplus) {
    m->own_number = m->k - lost, m->other_number = lost + surplus, m->wanted_number = 0;
    for (size_t i = lost; i < m->k; i++) m->own[i - lost] = shard(m->originals, i, m->size);
    for (size_t i = 0; i < lost + surplus; i++) m->other[i] = shard(m->recovery, i, m->size);
    for (size_t i = 0; i < lost; i++) want(m, RS_ORIGINAL, i);
    for (size_t i = lost + surplus; i < m->r; i++) want(m, RS_RECOVERY, i);
}

/* Sets up the rooms of a call, and returns their number. */
static size_t set_up(struct message *m, enum call call) {
    size_t number = call == UPDATE ? m->r : call == RECONSTRUCT ? m->wanted_number : 0;
    memset(m->written, '?', (m->k + m->r) * m->size);
    if (call == UPDATE) memcpy(m->written, m->recovery, m->r * m->size);
    for (size_t i = 0; i < number; i++) m->rooms[i].bytes = m->written + i * m->size, m->rooms[i].length = m->size;
    memcpy(m->before, m->written, (m->k + m->r) * m->size);
    return number;
}

static uint32_t called(struct message *m, enum call call, size_t rooms, void *work, size_t length,
                       struct rs_fault *fault) {
    size_t k = m->k, r = m->r, last = k - 1, from = last * m->size;
    if (call == VERIFY)
        return rs_verify_with_work(tables, k, r, m->own, m->own_number, m->other, m->other_number, work, length, fault);
    if (call == RECONSTRUCT)
        return rs_reconstruct_with_work(tables, k, r, m->own, m->own_number, m->other, m->other_number, m->wanted,
                                        m->wanted_number, m->rooms, rooms, work, length, fault);
    return rs_update_with_work(tables, k, r, last, m->originals + from, m->size, m->changed + from, m->size, m->rooms,
                               rooms, work, length, fault);
}

/* Makes a call. Returns whether it succeeds. It requests nothing from malloc, and writes the right bytes or none. */
static int succeeds(struct message *m, enum call call, void *work, size_t length) {
    struct rs_fault fault = {99, 99, 99, 99};
    long before = requests;
    size_t rooms = set_up(m, call), bytes = rooms * m->size;
    uint32_t answer = called(m, call, rooms, work, length, &fault);
    if (requests != before) wrong("a call with work memory requests memory from malloc");
    if (answer != fault.number || fault.first || fault.second || fault.third) wrong("another fault");
    if (answer && answer != RS_OUT_OF_MEMORY) wrong("another answer");
    if (memcmp(m->written, answer ? m->before : call == UPDATE ? m->updated : m->right, bytes))
        wrong(answer ? "a call that fails has written" : "other bytes");
    if (memcmp(m->written + bytes, m->before + bytes, (m->k + m->r) * m->size - bytes))
        wrong("other rooms are written");
    return !answer;
}

/* The least number of bytes with which a call succeeds, if the work memory begins one byte after a multiple of 64.
   `enough` bytes do, at some other addresses, too. */
static size_t needed(struct message *m, enum call call, size_t enough) {
    size_t few = 0, many = enough, used = heap_used;
    for (size_t offset = 0; offset < 64; offset += 31) {
        unsigned char *work = guarded(offset, enough);
        if (!succeeds(m, call, work, enough)) wrong("the number of bytes is too small");
        check_guards(work, enough);
    }
    unsigned char *work = guarded(1, enough);
    if (succeeds(m, call, NULL, 0)) many = 0;
    while (many - few > 1) {
        size_t middle = few + (many - few) / 2;
        if (succeeds(m, call, work, middle)) many = middle;
        else few = middle;
    }
    heap_used = used;
    return many;
}

/* Whether a check of received shards without all originals sums shards: it has one sum of k products for each surplus
   shard, and sums are taken if there are fewer products than four for each row of a decoder. */
static int is_summed(size_t k, size_t r, size_t surplus) {
    return surplus * k < 4 * decoder_rows(k, r);
}

/* Counts and a size: each call with no, one, half of the most and the most lost originals, without a surplus shard,
   with one, and with all. The numbers of bytes are what the call needs that needs most, but for calls that find few
   shards by sums. */
static void shape(size_t k, size_t r, size_t size) {
    size_t used = heap_used, most = k < r ? k : r, verified = 0;
    int has_rows = 0;
    size_t verify = rs_verify_work_bytes(k, r, size), update = rs_update_work_bytes(k, r);
    struct message m = made(k, r, size);
    if (needed(&m, UPDATE, update) != update && 16 * r < update - 127) wrong("an update needs fewer bytes");
    for (size_t i = 0; i < 12; i++) {
        size_t lost = i % 4 == 0 ? 0 : i % 4 == 1 ? 1 : i % 4 == 2 ? most / 2 : most, bytes;
        size_t surplus = i < 8 ? i / 4 : r - lost;
        if (lost + surplus > r || lost > most) continue;
        if (lost && !is_summed(k, r, surplus)) has_rows = 1;
        lose(&m, lost, surplus);
        bytes = needed(&m, VERIFY, verify);
        if (bytes > verified) verified = bytes;
        needed(&m, RECONSTRUCT, rs_reconstruct_work_bytes(k, r, size, surplus ? m.wanted_number : 0));
    }
    if (has_rows && verified != verify) wrong("each verification needs fewer bytes");
    heap_used = used;
}

/* Many counts and sizes, or only small ones. */
static void shapes(int few) {
    static const size_t counts[][2] = {{1, 1},   {1, 2},  {2, 1},    {2, 2},    {3, 2},   {2, 3},
                                       {4, 3},   {5, 4},  {10, 4},   {7, 9},    {1, 33},  {33, 1},
                                       {31, 33}, {64, 3}, {100, 30}, {30, 100}, {255, 1}, {128, 128}};
    static const size_t sizes[] = {2, 62, 64, 66, 2046, 2048, 2050, 4096, 4098, 10000};
    static const size_t large[][3] = {{1000, 200, 1024},
                                      {3000, 5000, 2},
                                      {65535, 1, 2},
                                      {1, 65535, 2},
                                      {10, 4, 1 << 20}};
    size_t number = 0;
    for (size_t i = 0; i < sizeof counts / sizeof *counts; i++)
        for (size_t n = 0; n < sizeof sizes / sizeof *sizes; n++)
            if (!few || counts[i][0] + counts[i][1] < 10) shape(counts[i][0], counts[i][1], sizes[n]), number++;
    for (size_t i = 0; i < sizeof large / sizeof *large && !few; i++, number++)
        shape(large[i][0], large[i][1], large[i][2]);
    printf("work_received: each call with its number of bytes, and with less, for %zu counts and sizes\n", number);
}

/* Where there is no number. */
static void none(void) {
    if (rs_verify_work_bytes(0, 1, 2) || rs_verify_work_bytes(3, 2, 3) || rs_verify_work_bytes(3, 2, 0) ||
        rs_verify_work_bytes(3, 2, SIZE_MAX - 1) || rs_reconstruct_work_bytes(3, 0, 2, 0) ||
        rs_reconstruct_work_bytes(3, 2, 2, 3) || rs_reconstruct_work_bytes(3, 2, SIZE_MAX / 4 + 1, 1) ||
        rs_update_work_bytes(65535, 2))
        wrong("a number where there is none");
}

int main(int count, char **words) {
    make_tables();
    none();
    shapes(count == 2 && !strcmp(words[1], "few"));
    return 0;
}
