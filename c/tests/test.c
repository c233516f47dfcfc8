/* The library from C. Words: `rows FILE..` reads cases of rs_scenarios; `refusals`; `rounds SEED COUNT`; `pieces SEED
   COUNT`; `mixes SEED COUNT`; `threads`. */
#define _DEFAULT_SOURCE
#define TEST "test"
#include "helpers.h"

#include <inttypes.h>
#include <pthread.h>
#include <sys/mman.h>

/* A message with its recovery shards, and which shards are there. */
struct message {
    size_t k, r, size;
    uint8_t *originals, *recovery, *marks;
};

static struct message made(size_t k, size_t r, size_t size) {
    struct message m = {k, r, size, room(k * size), room(r * size), room(k + r)};
    memset(m.originals, 0, k * size);
    memset(m.recovery, 0, r * size);
    memset(m.marks, 0, k + r);
    return m;
}

static void let_go(struct message *m) {
    free(m->originals);
    free(m->recovery);
    free(m->marks);
}

static uint8_t *copied(const uint8_t *from, size_t size) {
    return memcpy(room(size), from, size);
}

/* Rooms of one size, each in memory of its own, that hold rubbish. */
static struct rs_room *rooms_made(size_t count, size_t size) {
    struct rs_room *rooms = room(count * sizeof *rooms);
    for (size_t i = 0; i < count; i++) {
        rooms[i].bytes = memset(room(size), '#', size);
        rooms[i].length = size;
    }
    return rooms;
}

/* An encode over originals and rooms that lie anywhere. */
static uint32_t encode_anywhere(const struct message *m, uint8_t *recovery, struct rs_fault *fault) {
    struct rs_bytes *originals = room(m->k * sizeof *originals);
    struct rs_room *rooms = rooms_made(m->r, m->size), *before = room(m->r * sizeof *rooms);
    uint32_t answer;
    for (size_t i = m->k; i-- > 0;) {
        originals[i].bytes = copied(m->originals + i * m->size, m->size);
        originals[i].length = m->size;
    }
    memcpy(before, rooms, m->r * sizeof *rooms);
    answer = rs_encode_shards(tables, m->k, m->r, originals, m->k, rooms, m->r, fault);
    for (size_t i = 0; i < m->r; i++) {
        if (rooms[i].bytes != before[i].bytes || rooms[i].length != m->size) wrong("an array of rooms has changed");
        memcpy(recovery + i * m->size, rooms[i].bytes, m->size);
        free(rooms[i].bytes);
    }
    for (size_t i = 0; i < m->k; i++) free((void *)originals[i].bytes);
    free(originals);
    free(rooms);
    free(before);
    return answer;
}

/* A decode over shards and rooms that lie anywhere, the shards from the last to the first. */
static uint32_t decode_anywhere(const struct message *m, uint8_t *restored, struct rs_fault *fault) {
    struct rs_shard *shards[2] = {room(m->k * sizeof **shards), room(m->r * sizeof **shards)};
    size_t counts[2] = {0, 0}, lost;
    struct rs_room *rooms;
    uint32_t answer;
    for (size_t i = m->k + m->r; i-- > 0;) {
        int kind = i >= m->k;
        size_t index = kind ? i - m->k : i;
        struct rs_shard shard = {index, NULL, m->size};
        if (!m->marks[i]) continue;
        shard.bytes = copied((kind ? m->recovery : m->originals) + index * m->size, m->size);
        shards[kind][counts[kind]++] = shard;
    }
    lost = m->k - counts[0];
    rooms = rooms_made(lost, m->size);
    answer = rs_decode_shards(tables, m->k, m->r, shards[0], counts[0], shards[1], counts[1], rooms, lost, fault);
    for (size_t i = 0, next = 0; i < m->k; i++)
        if (!m->marks[i]) memcpy(restored + i * m->size, rooms[next++].bytes, m->size);
    for (size_t i = 0; i < lost; i++) free(rooms[i].bytes);
    for (int kind = 0; kind < 2; kind++) {
        for (size_t i = 0; i < counts[kind]; i++) free((void *)shards[kind][i].bytes);
        free(shards[kind]);
    }
    free(rooms);
    return answer;
}

/* Both forms of an encode, which are to answer the same. */
static uint32_t encode(const struct message *m, struct rs_fault *fault) {
    struct rs_fault other;
    uint8_t *recovery = room(m->r * m->size);
    uint32_t answer =
        rs_encode(tables, m->k, m->r, m->size, m->originals, m->k * m->size, m->recovery, m->r * m->size, fault);
    if (encode_anywhere(m, recovery, &other) != answer ||
        !told(fault, other.number, other.first, other.second, other.third) ||
        (!answer && memcmp(recovery, m->recovery, m->r * m->size)))
        wrong("two encodes differ");
    free(recovery);
    return answer;
}

/* And of a decode. */
static uint32_t decode(const struct message *m, struct rs_fault *fault) {
    struct rs_fault other;
    uint8_t *restored = copied(m->originals, m->k * m->size);
    uint32_t answer = rs_decode(tables, m->k, m->r, m->size, m->originals, m->k * m->size, m->recovery, m->r * m->size,
                                m->marks, m->k + m->r, fault);
    if (decode_anywhere(m, restored, &other) != answer ||
        !told(fault, other.number, other.first, other.second, other.third))
        wrong("two decodes differ");
    for (size_t i = 0; i < m->k * m->size; i++)
        if (!m->marks[i / m->size] && restored[i] != (answer ? '#' : m->originals[i]))
            wrong("two decodes differ in bytes");
    free(restored);
    return answer;
}

/* HEX, or parts of HEX*N with `+` between them. */
static void read_shard(const char *text, uint8_t *at, size_t size) {
    uint8_t *end = at + size;
    while (*text && *text != '\n') {
        size_t digits = strcspn(text, "*+\n"), times = 1;
        const char *behind = text + digits;
        if (*behind == '*') times = strtoul(behind + 1, (char **)&behind, 10);
        for (size_t n = 0; n < times; n++)
            for (size_t i = 0; i + 1 < digits; i += 2) {
                unsigned byte;
                if (at == end || sscanf(text + i, "%2x", &byte) != 1) wrong("a shard of a case can't be read");
                *at++ = (uint8_t)byte;
            }
        text = behind + (*behind == '+');
    }
    if (at != end) wrong("a shard of a case has another size");
}

static void row_encodes(char *words) {
    size_t k = strtoul(words, &words, 10), r = strtoul(words, &words, 10), size = strtoul(words, &words, 10);
    struct message m = made(k, r, size), wanted = made(k, r, size);
    struct rs_fault fault;
    size_t i = 0;
    for (char *word = strtok(words, " \n"); word; word = strtok(NULL, " \n")) {
        if (!strcmp(word, "->")) continue;
        read_shard(word, i < k ? m.originals + i * size : wanted.recovery + (i - k) * size, size);
        i++;
    }
    if (i != k + r) wrong("a case has another number of shards");
    if (encode(&m, &fault) || !told(&fault, 0, 0, 0, 0) || memcmp(m.recovery, wanted.recovery, r * size))
        wrong("a row isn't encoded so");
    let_go(&m);
    let_go(&wanted);
}

static void row_decodes(char *words) {
    size_t k = strtoul(words, &words, 10), r = strtoul(words, &words, 10), size = strtoul(words, &words, 10);
    struct message m = made(k, r, size), wanted = made(k, r, size);
    struct rs_fault fault;
    for (char *word = strtok(words, " \n"); word; word = strtok(NULL, " \n")) {
        char *shard = strchr(word, '=');
        if (!shard) continue;
        size_t i = strtoul(word + (*word == 'o' || *word == 'r'), NULL, 10);
        if (*word == 'o') {
            read_shard(shard + 1, m.originals + i * size, size);
            memcpy(wanted.originals + i * size, m.originals + i * size, size);
            m.marks[i] = 1;
        } else if (*word == 'r') {
            read_shard(shard + 1, m.recovery + i * size, size);
            m.marks[k + i] = 255;
        } else {
            read_shard(shard + 1, wanted.originals + i * size, size);
        }
    }
    if (decode(&m, &fault) || !told(&fault, 0, 0, 0, 0) || memcmp(m.originals, wanted.originals, k * size))
        wrong("a row isn't decoded so");
    let_go(&m);
    let_go(&wanted);
}

static void rows(const char *name) {
    static char line[1 << 20];
    FILE *file = fopen(name, "r");
    unsigned count = 0;
    if (!file) wrong(name);
    while (fgets(line, sizeof line, file)) {
        char *words = strstr(line, "| encodes ");
        if (strncmp(line, "call ", 5)) continue;
        if (words) row_encodes(words + 10), count++;
        words = strstr(line, "| decodes ");
        if (words) row_decodes(words + 10), count++;
    }
    fclose(file);
    if (!count) wrong("no row was read");
    printf("test: %u rows of %s\n", count, strrchr(name, '/') ? strrchr(name, '/') + 1 : name);
}

/* A refused call: its fault, with the buffers as they were. */
static void refused(const struct message *m, int decodes, size_t originals, size_t recovery, size_t marks,
                    uint32_t number, size_t first, size_t second, size_t third) {
    static const uint8_t none[1];
    uint8_t *old[2] = {room(originals), room(recovery)};
    struct rs_fault fault = {99, 99, 99, 99};
    uint32_t answer;
    memcpy(old[0], m->originals ? m->originals : none, originals);
    memcpy(old[1], m->recovery ? m->recovery : none, recovery);
    answer = decodes ? rs_decode(tables, m->k, m->r, m->size, m->originals, originals, m->recovery, recovery, m->marks,
                                 marks, &fault)
                     : rs_encode(tables, m->k, m->r, m->size, m->originals, originals, m->recovery, recovery, &fault);
    if (answer != number || !told(&fault, number, first, second, third)) {
        printf("test: %" PRIu32 " %zu %zu %zu told, wanted %" PRIu32 "\n", fault.number, fault.first, fault.second,
               fault.third, number);
        wrong("another fault");
    }
    if (memcmp(old[0], m->originals, originals) || memcmp(old[1], m->recovery, recovery))
        wrong("a refused call has written");
    free(old[0]);
    free(old[1]);
}

struct given {
    size_t index, size;
};

/* A refused call over arrays: shards of these indexes and sizes, and rooms of these sizes, each array up to an entry of
   size END. */
#define END ((size_t)-1)
static void refused_anywhere(int decodes, size_t k, size_t r, const struct given *originals,
                             const struct given *recovery, const size_t *lengths, uint32_t number, size_t first,
                             size_t second, size_t third) {
    const struct given *given[2] = {originals, recovery};
    struct rs_shard shards[2][8];
    struct rs_bytes bytes[8];
    struct rs_room rooms[8];
    struct rs_fault fault = {99, 99, 99, 99};
    size_t counts[3] = {0, 0, 0};
    uint32_t answer;
    for (int kind = 0; kind < 2; kind++)
        for (; given[kind][counts[kind]].size != END; counts[kind]++) {
            struct given one = given[kind][counts[kind]];
            struct rs_shard shard = {one.index, memset(room(one.size), kind ? 9 : 7, one.size), one.size};
            shards[kind][counts[kind]] = shard;
        }
    for (size_t i = 0; i < counts[0]; i++) {
        bytes[i].bytes = shards[0][i].bytes;
        bytes[i].length = shards[0][i].length;
    }
    for (; lengths[counts[2]] != END; counts[2]++) {
        rooms[counts[2]].length = lengths[counts[2]];
        rooms[counts[2]].bytes = memset(room(lengths[counts[2]]), '#', lengths[counts[2]]);
    }
    answer = decodes
                 ? rs_decode_shards(tables, k, r, shards[0], counts[0], shards[1], counts[1], rooms, counts[2], &fault)
                 : rs_encode_shards(tables, k, r, bytes, counts[0], rooms, counts[2], &fault);
    if (answer != number || !told(&fault, number, first, second, third)) {
        printf("test: %" PRIu32 " %zu %zu %zu told, wanted %" PRIu32 "\n", fault.number, fault.first, fault.second,
               fault.third, number);
        wrong("another fault over arrays");
    }
    for (size_t i = 0; i < counts[2]; i++) {
        for (size_t n = 0; n < lengths[i]; n++)
            if (rooms[i].bytes[n] != '#') wrong("a refused call over arrays has written");
        free(rooms[i].bytes);
    }
    for (int kind = 0; kind < 2; kind++)
        for (size_t i = 0; i < counts[kind]; i++) free((void *)shards[kind][i].bytes);
}

#define SHARDS(...)          \
    (const struct given[]) { \
        __VA_ARGS__, {       \
            0, END           \
        }                    \
    }
#define NO_SHARD             \
    (const struct given[]) { \
        { 0, END }           \
    }
#define ROOMS(...)       \
    (const size_t[]) {   \
        __VA_ARGS__, END \
    }
#define NO_ROOM        \
    (const size_t[]) { \
        END            \
    }

static void encodes_refused_anywhere(void) {
    const struct given *three = SHARDS({0, 4}, {1, 4}, {2, 4});
    const size_t *two = ROOMS(4, 4);
    refused_anywhere(0, 0, 2, three, NO_SHARD, two, RS_UNSUPPORTED_SHARD_COUNT, 0, 2, 0);
    refused_anywhere(0, 3, 0, three, NO_SHARD, NO_ROOM, RS_UNSUPPORTED_SHARD_COUNT, 3, 0, 0);
    refused_anywhere(0, SIZE_MAX, SIZE_MAX, NO_SHARD, NO_SHARD, two, RS_UNSUPPORTED_SHARD_COUNT, SIZE_MAX, SIZE_MAX, 0);
    refused_anywhere(0, 3, 2, NO_SHARD, NO_SHARD, two, RS_TOO_FEW_ORIGINAL_SHARDS, 3, 0, 0);
    refused_anywhere(0, 3, 2, SHARDS({0, 0}, {1, 4}), NO_SHARD, two, RS_INVALID_SHARD_SIZE, 0, 0, 0);
    refused_anywhere(0, 3, 2, SHARDS({0, 3}, {1, 4}), NO_SHARD, NO_ROOM, RS_INVALID_SHARD_SIZE, 3, 0, 0);
    refused_anywhere(0, 3, 2, SHARDS({0, 4}, {1, 4}, {2, 6}, {3, 4}), NO_SHARD, two, RS_DIFFERENT_SHARD_SIZE, 4, 6, 2);
    refused_anywhere(0, 3, 2, SHARDS({0, 4}, {1, 2}, {2, 6}), NO_SHARD, two, RS_DIFFERENT_SHARD_SIZE, 4, 2, 1);
    refused_anywhere(0, 3, 2, SHARDS({0, 4}, {1, 4}, {2, 4}, {3, 6}), NO_SHARD, two, RS_TOO_MANY_ORIGINAL_SHARDS, 3, 0,
                     0);
    refused_anywhere(0, 3, 2, SHARDS({0, 4}, {1, 4}), NO_SHARD, NO_ROOM, RS_TOO_FEW_ORIGINAL_SHARDS, 3, 2, 0);
    refused_anywhere(0, 3, 2, three, NO_SHARD, NO_ROOM, RS_WRONG_NUMBER_OF_ROOMS, 2, 0, 0);
    refused_anywhere(0, 3, 2, three, NO_SHARD, ROOMS(4), RS_WRONG_NUMBER_OF_ROOMS, 2, 1, 0);
    refused_anywhere(0, 3, 2, three, NO_SHARD, ROOMS(6, 4, 4), RS_WRONG_NUMBER_OF_ROOMS, 2, 3, 0);
    refused_anywhere(0, 3, 2, three, NO_SHARD, ROOMS(4, 6), RS_WRONG_LENGTH, 4, 6, 1);
    refused_anywhere(0, 3, 2, three, NO_SHARD, ROOMS(2, 6), RS_WRONG_LENGTH, 4, 2, 0);
}

static void decodes_refused_anywhere(void) {
    const struct given *three = SHARDS({2, 4}, {0, 4}, {1, 4}), *one = SHARDS({1, 4});
    refused_anywhere(1, 0, 2, NO_SHARD, one, NO_ROOM, RS_UNSUPPORTED_SHARD_COUNT, 0, 2, 0);
    refused_anywhere(1, 3, 0, three, NO_SHARD, NO_ROOM, RS_UNSUPPORTED_SHARD_COUNT, 3, 0, 0);
    refused_anywhere(1, 3, 2, SHARDS({9, 1}), SHARDS({9, 0}), NO_ROOM, RS_INVALID_SHARD_SIZE, 0, 0, 0);
    refused_anywhere(1, 3, 2, SHARDS({0, 4}, {3, 2}), SHARDS({9, 4}), NO_ROOM, RS_INVALID_ORIGINAL_SHARD_INDEX, 3, 3,
                     0);
    refused_anywhere(1, 3, 2, SHARDS({SIZE_MAX, 4}), one, NO_ROOM, RS_INVALID_ORIGINAL_SHARD_INDEX, 3, SIZE_MAX, 0);
    refused_anywhere(1, 3, 2, SHARDS({1, 4}, {1, 2}), SHARDS({9, 4}), NO_ROOM, RS_DUPLICATE_ORIGINAL_SHARD_INDEX, 1, 0,
                     0);
    refused_anywhere(1, 3, 2, SHARDS({1, 2}), SHARDS({9, 4}), NO_ROOM, RS_DIFFERENT_SHARD_SIZE, 4, 2, 0);
    refused_anywhere(1, 3, 2, SHARDS({2, 4}, {0, 6}, {1, 2}), SHARDS({0, 4}, {1, 6}), NO_ROOM, RS_DIFFERENT_SHARD_SIZE,
                     4, 6, 1);
    refused_anywhere(1, 3, 2, one, SHARDS({2, 4}), NO_ROOM, RS_INVALID_RECOVERY_SHARD_INDEX, 2, 2, 0);
    refused_anywhere(1, 3, 2, one, SHARDS({0, 4}, {0, 6}), NO_ROOM, RS_DUPLICATE_RECOVERY_SHARD_INDEX, 0, 0, 0);
    refused_anywhere(1, 3, 2, one, SHARDS({0, 4}, {1, 6}), NO_ROOM, RS_DIFFERENT_SHARD_SIZE, 4, 6, 2);
    refused_anywhere(1, 3, 2, NO_SHARD, SHARDS({0, 4}, {1, 6}), NO_ROOM, RS_DIFFERENT_SHARD_SIZE, 4, 6, 1);
    refused_anywhere(1, 3, 4, three, SHARDS({3, 4}, {1, 4}, {0, 2}, {2, 6}), NO_ROOM, RS_DIFFERENT_SHARD_SIZE, 4, 2, 5);
    refused_anywhere(1, 3, 2, one, SHARDS({0, 4}), NO_ROOM, RS_NOT_ENOUGH_SHARDS, 3, 1, 1);
    refused_anywhere(1, 3, 2, three, one, ROOMS(4), RS_INCONSISTENT_SHARDS, 3, 1, 0);
    refused_anywhere(1, 3, 2, SHARDS({1, 4}, {2, 4}), one, NO_ROOM, RS_WRONG_NUMBER_OF_ROOMS, 1, 0, 0);
    refused_anywhere(1, 3, 2, SHARDS({1, 4}, {2, 4}), one, ROOMS(6, 4), RS_WRONG_NUMBER_OF_ROOMS, 1, 2, 0);
    refused_anywhere(1, 3, 2, SHARDS({1, 4}, {2, 4}), one, ROOMS(6), RS_WRONG_LENGTH, 4, 6, 0);
    refused_anywhere(1, 3, 2, SHARDS({1, 4}), SHARDS({1, 4}, {0, 4}), ROOMS(4, 2), RS_WRONG_LENGTH, 4, 2, 1);
    refused_anywhere(1, 3, 3, NO_SHARD, SHARDS({1, 4}, {0, 4}, {2, 4}), ROOMS(4, 4, 6), RS_WRONG_LENGTH, 4, 6, 2);
    refused_anywhere(1, 3, 2, NO_SHARD, NO_SHARD, NO_ROOM, RS_NOT_ENOUGH_SHARDS, 3, 0, 0);
    refused_anywhere(1, 3, 2, SHARDS({2, 1}, {0, 0}), NO_SHARD, ROOMS(4), RS_NOT_ENOUGH_SHARDS, 3, 2, 0);
    refused_anywhere(1, 3, 2, SHARDS({2, 4}, {3, 4}, {2, 4}), NO_SHARD, NO_ROOM, RS_INVALID_ORIGINAL_SHARD_INDEX, 3, 3,
                     0);
    refused_anywhere(1, 3, 2, SHARDS({2, 4}, {2, 4}, {3, 4}), NO_SHARD, NO_ROOM, RS_DUPLICATE_ORIGINAL_SHARD_INDEX, 2,
                     0, 0);
    refused_anywhere(1, 3, 2, three, NO_SHARD, ROOMS(0), RS_WRONG_NUMBER_OF_ROOMS, 0, 1, 0);
    refused_anywhere(1, 3, 2, SHARDS({2, 9}, {0, 0}, {1, 5}), NO_SHARD, NO_ROOM, RS_OK, 0, 0, 0);
}

/* The texts are those of the Rust crate, whole or as much as fits. */
static void texts(void) {
    static const struct rs_fault faults[] = {{0, 0, 0, 0},
                                             {1, 0, 0, 0},
                                             {2, 70000, 7, 0},
                                             {3, 5, 0, 0},
                                             {4, 64, 66, 9},
                                             {5, 3, 1, 0},
                                             {6, 3, 0, 0},
                                             {7, 9, 4, 2},
                                             {8, 3, 8, 0},
                                             {9, 2, 6, 0},
                                             {10, 1, 0, 0},
                                             {11, 4, 0, 0},
                                             {12, 3, 2, 0},
                                             {13, 12, 11, 2},
                                             {14, 2, 3, 0},
                                             {15, 1, 1, 1},
                                             {19, 1, 1, 1},
                                             {UINT32_MAX, 1, 1, 1},
                                             {7, SIZE_MAX, SIZE_MAX, SIZE_MAX},
                                             {8, 0, 10, 0},
                                             {16, 3, 5, 0},
                                             {16, SIZE_MAX, SIZE_MAX, 1},
                                             {17, 4, 1, 0},
                                             {18, 2, 0, 0}};
    static const char *const wanted[] =
        {"",
         "out of memory",
         "unsupported shard count: 70000 original shards with 7 recovery shards",
         "invalid shard size: 5 bytes (must non-zero and multiple of 2)",
         "different shard size: expected 64 bytes, got 66 bytes",
         "too few original shards: got 1 shards while original_count is 3",
         "too many original shards: got more than original_count (3) shards",
         "not enough shards: 4 original + 2 recovery < 9 original_count",
         "invalid original shard index: 8 >= original_count 3",
         "invalid recovery shard index: 6 >= recovery_count 2",
         "duplicate original shard index: 1",
         "duplicate recovery shard index: 4",
         "inconsistent shards: 3 original + 2 recovery agree with no message",
         "wrong length: expected 12 bytes, got 11 bytes",
         "wrong number of rooms: expected 2, got 3",
         "tables not made: rs_tables_make has not filled them",
         "",
         "",
         "not enough shards: 18446744073709551615 original + 18446744073709551615 recovery < 18446744073709551615 "
         "original_count",
         "invalid original shard index: 10 >= original_count 0",
         "wanted index too large: original 5, count 3",
         "wanted index too large: recovery shard 18446744073709551615, count 18446744073709551615",
         "shard wanted twice: recovery shard 4",
         "wanted shard was received: original 2"};
    for (size_t i = 0; i < sizeof faults / sizeof *faults; i++)
        for (size_t length = 0; length < 130; length++) {
            char text[130];
            size_t whole = strlen(wanted[i]), written = !length || whole < length ? whole : length - 1;
            memset(text, '#', sizeof text);
            if (rs_fault_text(&faults[i], length ? text : NULL, length) != whole) wrong("the length of a text");
            if (length && (memcmp(text, wanted[i], written) || text[written])) wrong("another text");
            for (size_t n = length ? written + 1 : 0; n < sizeof text; n++)
                if (text[n] != '#') wrong("a text has written past its end");
        }
}

/* Each call over tables that were not made: its fault, with all else as it was. */
static void refused_unmade(const struct rs_tables *unmade) {
    struct rs_tables *made_tables = tables;
    struct message m = made(3, 2, 4);
    struct rs_bytes from[3];
    struct rs_shard own[3], other[2];
    struct rs_room rooms[2];
    uint8_t all[12], some[8];
    memset(m.originals, 7, 12);
    memset(m.recovery, 9, 8);
    memset(m.marks, 1, 5);
    memcpy(all, m.originals, 12);
    memcpy(some, m.recovery, 8);
    for (size_t i = 0; i < 3; i++) {
        from[i].bytes = own[i].bytes = all + 4 * i;
        from[i].length = own[i].length = 4;
        own[i].index = i;
    }
    for (size_t i = 0; i < 2; i++) {
        rooms[i].bytes = m.recovery + 4 * i;
        other[i].bytes = some + 4 * i;
        rooms[i].length = other[i].length = 4;
        other[i].index = i;
    }
    tables = (struct rs_tables *)unmade;
    /* Whatever else is wrong, and where all is right. */
    for (int decodes = 0; decodes < 2; decodes++) {
        struct message zero = m;
        zero.k = 0;
        m.marks[1] = 0;
        refused(&m, decodes, 12, 8, 5, RS_TABLES_NOT_MADE, 0, 0, 0);
        m.marks[1] = 1;
        refused(&m, decodes, 12, 8, 5, RS_TABLES_NOT_MADE, 0, 0, 0);
        refused(&m, decodes, 11, 8, 5, RS_TABLES_NOT_MADE, 0, 0, 0);
        refused(&zero, decodes, 12, 8, 5, RS_TABLES_NOT_MADE, 0, 0, 0);
    }
    for (int call = 0; call < 4; call++) {
        struct rs_fault fault = {99, 99, 99, 99};
        uint32_t answer = call == 0   ? rs_encode_shards(unmade, 3, 2, from, 3, rooms, 2, &fault)
                          : call == 1 ? rs_decode_shards(unmade, 3, 2, own, 1, other, 2, rooms, 2, &fault)
                          : call == 2 ? rs_decode_shards(unmade, 3, 2, own, 3, other, 0, rooms, 0, &fault)
                                      : rs_decode_shards(unmade, 0, 0, own, 0, other, 0, rooms, 2, &fault);
        if (answer != RS_TABLES_NOT_MADE || !told(&fault, RS_TABLES_NOT_MADE, 0, 0, 0))
            wrong("tables that were not made aren't noticed");
        if (memcmp(m.recovery, some, 8) || memcmp(all, m.originals, 12))
            wrong("a call over tables that were not made has written");
    }
    tables = made_tables;
    let_go(&m);
}

/* NULL with length 0, in buffers and arrays, and NULL as the fault. */
static void nulls(void) {
    uint8_t bytes[12] = {0}, marks[5] = {1, 1, 1, 0, 0};
    struct rs_fault fault;
    struct rs_bytes from[3] = {{bytes, 4}, {NULL, 0}, {bytes, 4}}, empty = {NULL, 0};
    struct rs_room to[3] = {{bytes, 4}, {NULL, 0}, {NULL, 0}};
    struct rs_shard own[3] = {{2, NULL, 0}, {0, NULL, 0}, {1, bytes, 4}}, other[2] = {{0, bytes, 4}, {1, NULL, 0}};
    if (rs_encode(tables, 3, 2, 4, NULL, 0, bytes, 8, &fault) != RS_WRONG_LENGTH ||
        !told(&fault, RS_WRONG_LENGTH, 12, 0, 0) ||
        rs_encode(tables, 3, 2, 4, bytes, 12, NULL, 0, NULL) != RS_WRONG_LENGTH ||
        rs_encode(tables, 3, 2, 0, NULL, 0, NULL, 0, NULL) != RS_INVALID_SHARD_SIZE)
        wrong("an encode with NULL");
    if (rs_decode(tables, 3, 2, 4, bytes, 12, bytes, 8, NULL, 0, &fault) != RS_WRONG_LENGTH ||
        !told(&fault, RS_WRONG_LENGTH, 5, 0, 2) ||
        rs_decode(tables, 3, 2, 0, NULL, 0, NULL, 0, marks, 5, NULL) != RS_OK)
        wrong("a decode with NULL");
    if (rs_encode_shards(tables, 3, 2, NULL, 0, NULL, 0, &fault) != RS_TOO_FEW_ORIGINAL_SHARDS ||
        rs_encode_shards(tables, 3, 2, &empty, 1, NULL, 0, NULL) != RS_INVALID_SHARD_SIZE ||
        rs_encode_shards(tables, 3, 2, from, 3, to, 2, &fault) != RS_DIFFERENT_SHARD_SIZE ||
        !told(&fault, RS_DIFFERENT_SHARD_SIZE, 4, 0, 1) ||
        rs_encode_shards(tables, 1, 2, from, 1, to, 2, &fault) != RS_WRONG_LENGTH ||
        !told(&fault, RS_WRONG_LENGTH, 4, 0, 1))
        wrong("an encode over arrays with NULL");
    if (rs_decode_shards(tables, 3, 2, NULL, 0, NULL, 0, NULL, 0, &fault) != RS_NOT_ENOUGH_SHARDS ||
        rs_decode_shards(tables, 3, 2, own, 3, NULL, 0, NULL, 0, NULL) != RS_OK ||
        rs_decode_shards(tables, 3, 2, own, 3, other + 1, 1, NULL, 0, NULL) != RS_INVALID_SHARD_SIZE ||
        rs_decode_shards(tables, 3, 2, own + 2, 1, other, 2, to + 1, 2, &fault) != RS_DIFFERENT_SHARD_SIZE ||
        !told(&fault, RS_DIFFERENT_SHARD_SIZE, 4, 0, 2) ||
        rs_decode_shards(tables, 1, 1, NULL, 0, other, 1, to + 1, 1, &fault) != RS_WRONG_LENGTH ||
        !told(&fault, RS_WRONG_LENGTH, 4, 0, 0))
        wrong("a decode over arrays with NULL");
    if (own[0].bytes || own[1].bytes || other[1].bytes || from[1].bytes || to[1].bytes)
        wrong("an array with NULL has changed");
    memset(bytes, 7, sizeof bytes);
    to[0].bytes = bytes + 8;
    other[0].bytes = bytes + 4;
    if (rs_encode(tables, 1, 1, 4, bytes, 4, bytes + 4, 4, NULL) ||
        rs_decode_shards(tables, 1, 1, NULL, 0, other, 1, to, 1, NULL))
        wrong("a round without a fault");
}

/* Arrays of up to five entries, each of which has no byte or four bytes, at any index. An entry without bytes has NULL
   if `with_null`. */
struct mixed {
    struct rs_shard shards[2][5];
    struct rs_bytes bytes[5];
    struct rs_room rooms[5];
    size_t counts[3];
    uint8_t written[20];
};

static void mix(struct mixed *m, uint64_t seed, int with_null) {
    static uint8_t some[4] = {1, 2, 3, 4};
    memset(m->written, '#', sizeof m->written);
    for (int i = 0; i < 3; i++) m->counts[i] = drawn(&seed) % 6;
    for (size_t i = 0; i < 5; i++) {
        size_t lengths[3];
        for (int n = 0; n < 3; n++) lengths[n] = drawn(&seed) % 3 ? 4 : 0;
        for (int n = 0; n < 2; n++) {
            struct rs_shard shard = {drawn(&seed) % 4, with_null && !lengths[n] ? NULL : some, lengths[n]};
            m->shards[n][i] = shard;
        }
        m->bytes[i].bytes = m->shards[0][i].bytes, m->bytes[i].length = lengths[0];
        m->rooms[i].bytes = with_null && !lengths[2] ? NULL : m->written + 4 * i, m->rooms[i].length = lengths[2];
    }
}

/* NULL changes no answer: both calls of each pair return the same and write the same. */
static void mixes(uint64_t seed, unsigned count) {
    unsigned succeeded = 0;
    for (unsigned n = 0; n < count; n++) {
        size_t k = 1 + drawn(&seed) % 4, r = 1 + drawn(&seed) % 4;
        uint64_t drawing = drawn(&seed);
        for (int decodes = 0; decodes < 2; decodes++) {
            struct mixed m[2];
            struct rs_fault fault[2];
            uint32_t answer[2];
            for (int i = 0; i < 2; i++) {
                size_t *c = m[i].counts;
                mix(&m[i], drawing, i);
                answer[i] = decodes ? rs_decode_shards(tables, k, r, i && !c[0] ? NULL : m[i].shards[0], c[0],
                                                       i && !c[1] ? NULL : m[i].shards[1], c[1],
                                                       i && !c[2] ? NULL : m[i].rooms, c[2], &fault[i])
                                    : rs_encode_shards(tables, k, r, i && !c[0] ? NULL : m[i].bytes, c[0],
                                                       i && !c[2] ? NULL : m[i].rooms, c[2], &fault[i]);
            }
            if (answer[0] != answer[1] ||
                !told(&fault[1], fault[0].number, fault[0].first, fault[0].second, fault[0].third))
                wrong("NULL changes an answer");
            if (memcmp(m[0].written, m[1].written, sizeof m[0].written)) wrong("NULL changes what is written");
            succeeded += !answer[0];
        }
    }
    printf("test: %u calls with NULL as without, %u succeed\n", 2 * count, succeeded);
}

/* Arrays of rooms in memory that can't be written. */
static void const_rooms(void) {
    struct rs_room *rooms = mmap(NULL, 4096, PROT_READ | PROT_WRITE, MAP_PRIVATE | MAP_ANONYMOUS, -1, 0);
    uint8_t originals[12], recovery[8], restored[8];
    struct rs_bytes from[3];
    struct rs_shard own, other[2];
    struct rs_fault fault;
    if (rooms == MAP_FAILED) wrong("no memory for the test");
    for (size_t i = 0; i < 12; i++) originals[i] = (uint8_t)(3 * i + 1);
    for (size_t i = 0; i < 3; i++) from[i].bytes = originals + 4 * i, from[i].length = 4;
    for (size_t i = 0; i < 2; i++) {
        rooms[i].bytes = recovery + 4 * i, rooms[i + 2].bytes = restored + 4 * i,
        rooms[i].length = rooms[i + 2].length = 4;
        other[i].index = i, other[i].bytes = recovery + 4 * i, other[i].length = 4;
    }
    own.index = 1, own.bytes = originals + 4, own.length = 4;
    if (mprotect(rooms, 4096, PROT_READ)) wrong("no protection of memory");
    if (rs_encode_shards(tables, 3, 2, from, 3, rooms, 2, &fault) ||
        rs_decode_shards(tables, 3, 2, &own, 1, other, 2, rooms + 2, 2, &fault) || memcmp(restored, originals, 4) ||
        memcmp(restored + 4, originals + 8, 4))
        wrong("constant arrays of rooms");
    munmap(rooms, 4096);
}

/* The name of each number, and how long shards must be. */
static void names_and_sizes(void) {
#define NAMED(number) \
    if (strcmp(rs_status_name(number), #number)) wrong("the name of " #number)
    NAMED(RS_OK);
    NAMED(RS_OUT_OF_MEMORY);
    NAMED(RS_UNSUPPORTED_SHARD_COUNT);
    NAMED(RS_INVALID_SHARD_SIZE);
    NAMED(RS_DIFFERENT_SHARD_SIZE);
    NAMED(RS_TOO_FEW_ORIGINAL_SHARDS);
    NAMED(RS_TOO_MANY_ORIGINAL_SHARDS);
    NAMED(RS_NOT_ENOUGH_SHARDS);
    NAMED(RS_INVALID_ORIGINAL_SHARD_INDEX);
    NAMED(RS_INVALID_RECOVERY_SHARD_INDEX);
    NAMED(RS_DUPLICATE_ORIGINAL_SHARD_INDEX);
    NAMED(RS_DUPLICATE_RECOVERY_SHARD_INDEX);
    NAMED(RS_INCONSISTENT_SHARDS);
    NAMED(RS_WRONG_LENGTH);
    NAMED(RS_WRONG_NUMBER_OF_ROOMS);
    NAMED(RS_TABLES_NOT_MADE);
    NAMED(RS_WANTED_INDEX_TOO_LARGE);
    NAMED(RS_WANTED_TWICE);
    NAMED(RS_WANTED_RECEIVED);
    if (strcmp(rs_status_name(19), "unknown") || rs_shard_bytes(0, 3) != 2 || rs_shard_bytes(35, 3) != 12 ||
        rs_shard_bytes(SIZE_MAX, 1) || rs_tables_bytes() != sizeof *tables)
        wrong("a name or a size");
}

/* Tables of zeros, of ones, and made ones whose last word was lost. */
static void unmade(void) {
    struct rs_tables *other = calloc(1, sizeof *other);
    if (!other) wrong("no memory for the test");
    refused_unmade(other);
    memset(other, 255, sizeof *other);
    refused_unmade(other);
    memcpy(other, tables, sizeof *other);
    other->words[RS_TABLE_WORDS - 1] = 0;
    refused_unmade(other);
    /* Tables that are made can be made again. */
    memcpy(other, tables, sizeof *other);
    if (rs_tables_make(other) || memcmp(other, tables, sizeof *other)) wrong("tables that are made again");
    free(other);
    puts("test: tables that were not made");
}

static void refusals(void) {
    struct message m = made(3, 2, 4);
    const size_t most = SIZE_MAX;
    memset(m.originals, 7, 12);
    memset(m.recovery, 9, 8);
    for (int decodes = 0; decodes < 2; decodes++) {
        struct message other = m;
        other.k = 0;
        refused(&other, decodes, 0, 8, 2, RS_UNSUPPORTED_SHARD_COUNT, 0, 2, 0);
        other.k = 65536;
        refused(&other, decodes, 12, 8, 5, RS_UNSUPPORTED_SHARD_COUNT, 65536, 2, 0);
        other.k = most;
        refused(&other, decodes, 12, 8, 5, RS_UNSUPPORTED_SHARD_COUNT, most, 2, 0);
        other = m;
        other.r = 0;
        refused(&other, decodes, 12, 0, 3, RS_UNSUPPORTED_SHARD_COUNT, 3, 0, 0);
        refused(&m, decodes, 11, 8, 5, RS_WRONG_LENGTH, 12, 11, 0);
        refused(&m, decodes, 0, 8, 5, RS_WRONG_LENGTH, 12, 0, 0);
        refused(&m, decodes, 12, 7, 5, RS_WRONG_LENGTH, 8, 7, 1);
        refused(&m, decodes, 11, 7, 4, RS_WRONG_LENGTH, 12, 11, 0);
        other = m;
        other.size = 5;
        refused(&other, decodes, 12, 8, 5, RS_WRONG_LENGTH, 15, 12, 0);
        other.size = most / 2;
        refused(&other, decodes, 12, 8, 5, RS_WRONG_LENGTH, most, 12, 0);
        other.size = 0;
        m.marks[3] = other.marks[3] = 1;
        refused(&other, decodes, 0, 0, 5, RS_INVALID_SHARD_SIZE, 0, 0, 0);
        other.size = 3;
        refused(&other, decodes, 9, 6, 5, RS_INVALID_SHARD_SIZE, 3, 0, 0);
        m.marks[3] = 0;
    }
    refused(&m, 1, 12, 8, 4, RS_WRONG_LENGTH, 5, 4, 2);
    refused(&m, 1, 12, 7, 4, RS_WRONG_LENGTH, 8, 7, 1);
    refused(&m, 1, 12, 8, 5, RS_NOT_ENOUGH_SHARDS, 3, 0, 0);
    m.marks[1] = 1;
    refused(&m, 1, 12, 8, 5, RS_NOT_ENOUGH_SHARDS, 3, 1, 0);
    m.marks[4] = 1;
    refused(&m, 1, 12, 8, 5, RS_NOT_ENOUGH_SHARDS, 3, 1, 1);
    memset(m.marks, 1, 5);
    refused(&m, 1, 12, 8, 5, RS_INCONSISTENT_SHARDS, 3, 2, 0);
    m.marks[0] = 0;
    refused(&m, 1, 12, 8, 5, RS_INCONSISTENT_SHARDS, 2, 2, 0);
    if (rs_supports(0, 1) || rs_supports(1, 0) || rs_supports(most, most) || rs_supports(32769, 32768) ||
        !rs_supports(32768, 32768) || !rs_supports(65535, 1) || !rs_supports(1, 65535) || rs_supports(65535, 2) ||
        rs_version() != RS_VERSION)
        wrong("other counts or another version");
    let_go(&m);
    encodes_refused_anywhere();
    decodes_refused_anywhere();
    texts();
    unmade();
    nulls();
    const_rooms();
    names_and_sizes();
    puts("test: refusals");
}

/* Encodes, loses shards, decodes. With a surplus shard it also damages one, at byte `from` or after it. */
static void round_of(uint64_t *state, size_t k, size_t r, size_t size, size_t from) {
    size_t left, surplus;
    struct message m = made(k, r, size);
    uint8_t *originals = room(k * size), *rubbish = room(k * size);
    struct rs_fault fault;
    for (size_t i = 0; i < k * size; i++) m.originals[i] = (uint8_t)drawn(state);
    memcpy(originals, m.originals, k * size);
    if (encode(&m, &fault)) wrong("a round isn't encoded");
    if (memcmp(originals, m.originals, k * size)) wrong("an encode has written its originals");
    left = k + drawn(state) % (r + 1);
    surplus = left - k;
    for (size_t n = 0; n < left;) {
        uint8_t *mark = m.marks + drawn(state) % (k + r);
        if (!*mark) *mark = (uint8_t)(1 + drawn(state) % 255), n++;
    }
    for (size_t i = 0; i < k; i++)
        if (!m.marks[i])
            for (size_t b = 0; b < size; b++) m.originals[i * size + b] = (uint8_t)drawn(state);
    for (size_t i = 0; i < r; i++)
        if (!m.marks[k + i]) memset(m.recovery + i * size, '!', size);
    memcpy(rubbish, m.originals, k * size);
    if (surplus) {
        size_t i;
        do i = drawn(state) % (k + r);
        while (!m.marks[i]);
        uint8_t *byte =
            (i < k ? m.originals + i * size : m.recovery + (i - k) * size) + from + drawn(state) % (size - from);
        *byte ^= 1;
        if (decode(&m, &fault) != RS_INCONSISTENT_SHARDS || fault.first + fault.second != left)
            wrong("a damaged shard isn't noticed");
        *byte ^= 1;
        if (memcmp(rubbish, m.originals, k * size)) wrong("a refused decode has written");
    }
    if (decode(&m, &fault) || memcmp(originals, m.originals, k * size)) wrong("a round doesn't come back");
    free(originals);
    free(rubbish);
    let_go(&m);
}

static void random_round(uint64_t *state) {
    size_t k = 1 + drawn(state) % (drawn(state) % 8 ? 20 : 200), r = 1 + drawn(state) % (drawn(state) % 8 ? 20 : 200);
    round_of(state, k, r, 2 + 2 * (drawn(state) % 100), 0);
}

/* Shards about as long as the strips in which a call codes them: 4096 bytes in an encode and in direct sums, 2048 bytes
   in any other decode. Surplus shards are damaged in the last strip of a decode alone. */
static void strips(uint64_t seed) {
    static const size_t counts[][2] = {{1, 1}, {1, 5}, {5, 1}, {2, 3}, {10, 4}, {33, 31}};
    static const size_t sizes[] = {2046, 2048, 2050, 2082, 4094, 4096, 4098, 4130, 6144, 8192, 8194, 8226};
    for (size_t c = 0; c < sizeof counts / sizeof *counts; c++)
        for (size_t s = 0; s < sizeof sizes / sizeof *sizes; s++)
            for (int n = 0; n < 4; n++)
                round_of(&seed, counts[c][0], counts[c][1], sizes[s], (sizes[s] - 1) / 2048 * 2048);
    puts("test: shards about as long as strips");
}

/* The largest counts, with shards of more than one strip: up to 65536 rows are coded twice. */
static void largest(uint64_t seed) {
    round_of(&seed, 65535, 1, 4098, 4096);
    round_of(&seed, 1, 65535, 4098, 4096);
    round_of(&seed, 32768, 32768, 4098, 4096);
    puts("test: the largest counts");
}

static void rounds(uint64_t seed, unsigned count) {
    for (unsigned n = 0; n < count; n++) random_round(&seed);
    printf("test: %u rounds\n", count);
}

/* Encodes a message in pieces that end at multiples of 64 bytes, the last one at the end; loses shards; decodes in
   other pieces. */
static void pieces_round(uint64_t *state) {
    size_t k = 1 + drawn(state) % 40, r = 1 + drawn(state) % 40, size = 2 + 2 * (drawn(state) % 600),
           most = k < r ? k : r;
    size_t lost = drawn(state) % (most + 1), own = 0, others = 0, next = 0;
    struct message m = made(k, r, size), whole = made(k, r, size);
    struct rs_bytes *from = room(k * sizeof *from);
    struct rs_room *to = room((k + r) * sizeof *to);
    struct rs_shard *given = room(k * sizeof *given), *other = room(r * sizeof *other);
    struct rs_fault fault;
    for (size_t i = 0; i < k * size; i++) m.originals[i] = (uint8_t)drawn(state);
    memcpy(whole.originals, m.originals, k * size);
    if (encode(&whole, &fault)) wrong("a whole message isn't encoded");
    for (size_t begin = 0, end; begin < size; begin = end) {
        end = begin + 64 * (1 + drawn(state) % 5);
        if (end > size) end = size;
        for (size_t i = 0; i < k; i++) from[i].bytes = m.originals + i * size + begin, from[i].length = end - begin;
        for (size_t i = 0; i < r; i++) to[i].bytes = m.recovery + i * size + begin, to[i].length = end - begin;
        if (rs_encode_shards(tables, k, r, from, k, to, r, &fault)) wrong("a piece isn't encoded");
    }
    if (memcmp(m.recovery, whole.recovery, r * size)) wrong("pieces are encoded to other bytes than the whole");
    /* The lost originals, and as many recovery shards as are needed, or one more. */
    memset(m.marks, 1, k);
    while (next < lost) {
        size_t i = drawn(state) % k;
        if (m.marks[i]) m.marks[i] = 0, memset(m.originals + i * size, '?', size), next++;
    }
    others = lost < r ? lost + drawn(state) % 2 : lost;
    for (size_t begin = 0, end; begin < size; begin = end) {
        end = begin + 64 * (1 + drawn(state) % 5);
        if (end > size) end = size;
        own = next = 0;
        for (size_t i = 0; i < k; i++)
            if (m.marks[i])
                given[own].index = i, given[own].bytes = m.originals + i * size + begin,
                given[own++].length = end - begin;
            else to[next].bytes = m.originals + i * size + begin, to[next++].length = end - begin;
        for (size_t i = 0; i < others; i++)
            other[i].index = r - 1 - i, other[i].bytes = m.recovery + (r - 1 - i) * size + begin,
            other[i].length = end - begin;
        if (rs_decode_shards(tables, k, r, given, own, other, others, to, next, &fault)) wrong("a piece isn't decoded");
    }
    if (memcmp(m.originals, whole.originals, k * size)) wrong("pieces are decoded to other bytes than the whole");
    free(from);
    free(to);
    free(given);
    free(other);
    let_go(&m);
    let_go(&whole);
}

static void pieces(uint64_t seed, unsigned count) {
    for (unsigned n = 0; n < count; n++) pieces_round(&seed);
    printf("test: %u messages in pieces\n", count);
}

static void *thread(void *seed) {
    uint64_t state = *(uint64_t *)seed;
    for (int n = 0; n < 200; n++) random_round(&state);
    return NULL;
}

static void threads(void) {
    pthread_t all[4];
    uint64_t seeds[4] = {11, 22, 33, 44};
    for (int i = 0; i < 4; i++)
        if (pthread_create(&all[i], NULL, thread, &seeds[i])) wrong("no thread");
    for (int i = 0; i < 4; i++) pthread_join(all[i], NULL);
    puts("test: four threads over one table");
}

int main(int count, char **words) {
    make_tables();
    if (count > 2 && !strcmp(words[1], "rows"))
        for (int i = 2; i < count; i++) rows(words[i]);
    else if (count == 2 && !strcmp(words[1], "refusals")) refusals();
    else if (count == 4 && !strcmp(words[1], "rounds"))
        rounds(strtoull(words[2], NULL, 10), (unsigned)strtoul(words[3], NULL, 10));
    else if (count == 4 && !strcmp(words[1], "mixes"))
        mixes(strtoull(words[2], NULL, 10), (unsigned)strtoul(words[3], NULL, 10));
    else if (count == 4 && !strcmp(words[1], "pieces"))
        pieces(strtoull(words[2], NULL, 10), (unsigned)strtoul(words[3], NULL, 10));
    else if (count == 3 && !strcmp(words[1], "strips")) strips(strtoull(words[2], NULL, 10));
    else if (count == 3 && !strcmp(words[1], "largest")) largest(strtoull(words[2], NULL, 10));
    else if (count == 2 && !strcmp(words[1], "threads")) threads();
    else wrong("no such words");
    free(tables);
    return 0;
}
