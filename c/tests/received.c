/* rs_verify, rs_reconstruct, rs_decode_shards and rs_update. Words: `rounds SEED COUNT MOST`, with at most MOST originals
   and recovery shards, and MOST at most 3000; `pairs FILE`; `refusals`. */
#define TEST "received"
#include "helpers.h"

#include <inttypes.h>

enum { MOST_SHARDS = 3000 };

/* Bytes that begin at a place which differs from one call to the next, so that all remainders modulo 64 occur. */
struct place {
    uint8_t *memory, *bytes;
};

static struct place place(size_t size) {
    static size_t calls;
    size_t offset = calls++ % 64;
    uint8_t *memory = room(offset + size);
    return (struct place){memory, memory + offset};
}

/* A message of k originals and r recovery shards, one after the other, and an order of these shards. */
struct message {
    size_t k, r, size;
    uint8_t *memory, *shards;
    size_t *order;
};

static struct message unwritten(size_t k, size_t r, size_t size) {
    struct place at = place((k + r) * size);
    return (struct message){k, r, size, at.memory, at.bytes, room((k + r) * sizeof(size_t))};
}

static void drop(struct message *m) {
    free(m->memory);
    free(m->order);
}

static struct message made_of(size_t k, size_t r, size_t size, uint64_t *state) {
    struct message m = unwritten(k, r, size);
    for (size_t i = 0; i < m.k * m.size; i++) m.shards[i] = (uint8_t)(drawn(state) >> 24);
    for (size_t i = 0; i < m.k + m.r; i++) {
        size_t other = drawn(state) % (i + 1);
        m.order[i] = m.order[other];
        m.order[other] = i;
    }
    if (rs_encode(tables, m.k, m.r, m.size, m.shards, m.k * m.size, m.shards + m.k * m.size, m.r * m.size, NULL))
        wrong("an encode fails");
    return m;
}

static struct message made(uint64_t *state, size_t most) {
    size_t k = 1 + drawn(state) % most, r = 1 + drawn(state) % most, size = 2 + 2 * (drawn(state) % 40);
    return made_of(k, r, drawn(state) % 8 == 0 ? size + 4096 : size, state);
}

/* Shards that were received: the first ones of the order. */
struct received {
    struct rs_shard shards[2][MOST_SHARDS];
    size_t counts[2];
};

static struct received first_of(const struct message *m, size_t count) {
    struct received received = {.counts = {0, 0}};
    for (size_t i = 0; i < count; i++) {
        size_t place = m->order[i], kind = place >= m->k;
        struct rs_shard shard = {kind ? place - m->k : place, m->shards + place * m->size, m->size};
        received.shards[kind][received.counts[kind]++] = shard;
    }
    return received;
}

static uint32_t verified(const struct message *m, const struct received *a, struct rs_fault *fault) {
    return rs_verify(tables, m->k, m->r, a->shards[0], a->counts[0], a->shards[1], a->counts[1], fault);
}

/* Rooms for shards of a message, at places of all remainders modulo 64. */
struct rooms {
    size_t count;
    struct place places[2 * MOST_SHARDS];
    struct rs_room rooms[2 * MOST_SHARDS];
};

static struct rooms *rooms_for(const struct message *m, size_t count) {
    static struct rooms rooms;
    rooms.count = count;
    for (size_t i = 0; i < count; i++) {
        rooms.places[i] = place(m->size);
        rooms.rooms[i] = (struct rs_room){memset(rooms.places[i].bytes, '#', m->size), m->size};
    }
    return &rooms;
}

/* Compares what a call with this answer has written into rooms with the shards at these places, or with what the rooms
   held before if the call has failed. Returns the answer. */
static uint32_t compared(const struct message *m, struct rooms *rooms, const size_t *places, uint32_t answer) {
    for (size_t i = 0; i < rooms->count; i++) {
        const uint8_t *bytes = rooms->places[i].bytes;
        if (!answer && memcmp(bytes, m->shards + places[i] * m->size, m->size)) wrong("another shard comes back");
        for (size_t j = 0; answer && j < m->size; j++)
            if (bytes[j] != '#') wrong("a call that fails has written");
        free(rooms->places[i].memory);
    }
    return answer;
}

/* Reconstructs the shards of the order from place `from` on, and compares them, or the unchanged rooms if the call
   fails. */
static uint32_t reconstructed(const struct message *m, const struct received *a, size_t from, struct rs_fault *fault) {
    static struct rs_wanted wanted[2 * MOST_SHARDS];
    static size_t places[2 * MOST_SHARDS];
    size_t count = 0;
    for (size_t i = from; i < m->k + m->r; i++, count++) {
        size_t place = m->order[i], kind = place >= m->k;
        wanted[count].kind = kind ? RS_RECOVERY : RS_ORIGINAL;
        wanted[count].index = kind ? place - m->k : place;
        places[count] = place;
    }
    struct rooms *rooms = rooms_for(m, count);
    return compared(m, rooms, places,
                    rs_reconstruct(tables, m->k, m->r, a->shards[0], a->counts[0], a->shards[1], a->counts[1], wanted,
                                   count, rooms->rooms, count, fault));
}

/* Decodes the received shards, and compares the restored originals, or the unchanged rooms if the call fails. */
static uint32_t decoded(const struct message *m, const struct received *a, struct rs_fault *fault) {
    static size_t places[2 * MOST_SHARDS];
    uint8_t *is_there = memset(room(m->k), 0, m->k);
    size_t count = 0;
    for (size_t i = 0; i < a->counts[0]; i++) is_there[a->shards[0][i].index] = 1;
    for (size_t i = 0; i < m->k; i++)
        if (!is_there[i]) places[count++] = i;
    free(is_there);
    struct rooms *rooms = rooms_for(m, count);
    return compared(m, rooms, places,
                    rs_decode_shards(tables, m->k, m->r, a->shards[0], a->counts[0], a->shards[1], a->counts[1],
                                     rooms->rooms, count, fault));
}

/* An original changes. Its recovery shards are updated, and compared with those that an encode makes. */
static void update(struct message *m, uint64_t *state) {
    size_t index = drawn(state) % m->k, length = m->r * m->size;
    uint8_t *original = m->shards + index * m->size, *recovery = m->shards + m->k * m->size;
    struct place old = place(m->size), updated = place(length);
    static struct rs_room rooms[MOST_SHARDS];
    struct rs_fault fault = {99, 99, 99, 99};
    memcpy(old.bytes, original, m->size);
    memcpy(updated.bytes, recovery, length);
    for (size_t i = 0; i < m->size; i++) original[i] = (uint8_t)(drawn(state) >> 24);
    for (size_t i = 0; i < m->r; i++) rooms[i] = (struct rs_room){updated.bytes + i * m->size, m->size};
    if (rs_update(tables, m->k, m->r, index, old.bytes, m->size, original, m->size, rooms, m->r, &fault) ||
        !told(&fault, RS_OK, 0, 0, 0))
        wrong("an update fails");
    if (rs_encode(tables, m->k, m->r, m->size, m->shards, m->k * m->size, recovery, length, NULL))
        wrong("an encode fails");
    if (memcmp(updated.bytes, recovery, length)) wrong("an update makes other recovery shards than an encode");
    free(old.memory);
    free(updated.memory);
}

/* A round with a message of random counts. In each second round, at most four shards are wanted and at most one is
   surplus. */
static void round_of(uint64_t *state, size_t most) {
    struct message m = made(state, most);
    update(&m, state);
    size_t is_few = drawn(state) % 2, count = m.k + drawn(state) % (is_few ? 2 : m.r + 1), others = m.k + m.r - count;
    size_t from = count + drawn(state) % (others + 1);
    if (is_few && others > 4) from = m.k + m.r - drawn(state) % 5;
    struct received a = first_of(&m, count);
    struct rs_fault fault = {99, 99, 99, 99};
    if (verified(&m, &a, &fault) || !told(&fault, RS_OK, 0, 0, 0)) wrong("shards of one message are refused");
    if (reconstructed(&m, &a, from, &fault) || !told(&fault, RS_OK, 0, 0, 0))
        wrong("wanted shards aren't reconstructed");
    if (decoded(&m, &a, &fault) || !told(&fault, RS_OK, 0, 0, 0)) wrong("shards of one message aren't decoded");
    if (count > m.k) {
        uint8_t *damaged = m.shards + m.order[drawn(state) % count] * m.size + drawn(state) % m.size;
        *damaged ^= (uint8_t)(1 + drawn(state) % 255);
        if (verified(&m, &a, &fault) != RS_INCONSISTENT_SHARDS ||
            !told(&fault, RS_INCONSISTENT_SHARDS, a.counts[0], a.counts[1], 0) ||
            reconstructed(&m, &a, from, &fault) != RS_INCONSISTENT_SHARDS ||
            reconstructed(&m, &a, from, NULL) != RS_INCONSISTENT_SHARDS ||
            decoded(&m, &a, &fault) != RS_INCONSISTENT_SHARDS)
            wrong("a damaged shard isn't noticed");
    }
    drop(&m);
}

/* A digest of bytes: FNV-1a with 64 bits. */
static uint64_t digest(const uint8_t *from, size_t length) {
    uint64_t digest = 14695981039346656037u;
    for (size_t i = 0; i < length; i++) digest = (digest ^ from[i]) * 1099511628211u;
    return digest;
}

/* The shards of a codeword at these two places are lost, and come back. If both places are the same, one shard is lost.
 */
static void lose(struct message *m, size_t first, size_t second) {
    struct rs_fault fault = {99, 99, 99, 99};
    size_t count = 0;
    for (size_t i = 0; i < m->k + m->r; i++)
        if (i != first && i != second) m->order[count++] = i;
    m->order[count] = first;
    m->order[m->k + m->r - 1] = second;
    struct received a = first_of(m, count);
    if (verified(m, &a, &fault) || reconstructed(m, &a, count, &fault) || decoded(m, &a, &fault) ||
        !told(&fault, RS_OK, 0, 0, 0))
        wrong("lost shards don't come back");
}

/* The codeword whose shards are the first 64 bytes of these ten times, and then the last two. */
static struct message longer(const struct message *m) {
    struct message longer = unwritten(m->k, m->r, 642);
    for (size_t i = 0; i < m->k + m->r; i++) {
        uint8_t *shard = longer.shards + i * 642;
        for (size_t j = 0; j < 10; j++) memcpy(shard + 64 * j, m->shards + i * 66, 64);
        memcpy(shard + 640, m->shards + i * 66 + 64, 2);
    }
    return longer;
}

/* Every lost shard, and every pair of lost shards, for all counts up to 12:12. The file has a digest of each codeword,
   which the Rust crate has made. So the shards that come back are compared with those of the crate. Each codeword is
   lost once more with more chunks in a shard, because sums over more than eight chunks are made in another way. */
static void pairs(const char *name) {
    FILE *file = fopen(name, "r");
    char line[160];
    size_t k, r, codewords = 0, count = 0;
    uint64_t wanted;
    if (!file) wrong(name);
    while (fgets(line, sizeof line, file)) {
        if (sscanf(line, "%zu %zu %" SCNx64, &k, &r, &wanted) != 3) continue;
        uint64_t state = 1000 * k + r;
        struct message m = made_of(k, r, 66, &state), more = longer(&m);
        if (digest(m.shards, (k + r) * 66) != wanted) wrong("a codeword isn't that of the Rust crate");
        for (size_t first = 0; first < k + r; first++)
            for (size_t second = first; second < (r > 1 ? k + r : first + 1); second++, count++)
                lose(&m, first, second), lose(&more, first, second);
        drop(&m);
        drop(&more);
        codewords++;
    }
    fclose(file);
    if (codewords != 144) wrong("another number of codewords");
    printf("received: %zu times one or two lost shards of the Rust crate's codewords come back\n", count);
}

/* The shards that the refusals below pass: three originals and two recovery shards of four bytes, and one of six. */
static uint8_t bytes[28];
static struct rs_shard own[4], other[3];
static struct rs_room rooms[3];

/* Both calls over these numbers of shards fail with this fault, and write nothing. */
static void refused(size_t k, size_t r, const struct rs_shard *o, size_t on, const struct rs_shard *q, size_t qn,
                    uint32_t number, size_t first, size_t second, size_t third) {
    const struct rs_wanted wanted = {RS_RECOVERY, 1};
    struct rs_fault fault = {99, 99, 99, 99}, again = fault;
    if (rs_verify(tables, k, r, o, on, q, qn, &fault) != number || !told(&fault, number, first, second, third))
        wrong("a verification fails with another fault");
    if (rs_reconstruct(tables, k, r, o, on, q, qn, &wanted, 1, rooms, 1, &again) != number ||
        !told(&again, number, first, second, third))
        wrong("a reconstruction fails with another fault");
}

/* A reconstruction from all originals fails with this fault. */
static void unwanted(const struct rs_wanted *wanted, size_t count, size_t places, uint32_t number, size_t first,
                     size_t second, size_t third, const char *text) {
    struct rs_fault fault = {99, 99, 99, 99};
    char got[128];
    if (rs_reconstruct(tables, 3, 2, own, 3, NULL, 0, wanted, count, rooms, places, &fault) != number ||
        !told(&fault, number, first, second, third))
        wrong("wanted shards are refused with another fault");
    if (rs_fault_text(&fault, got, sizeof got) != strlen(text) || strcmp(got, text)) wrong("another text");
}

/* An update fails with this fault, and changes nothing. */
static void not_updated(size_t k, size_t r, size_t index, size_t before, size_t after, size_t places, uint32_t number,
                        size_t first, size_t second, size_t third) {
    struct rs_fault fault = {99, 99, 99, 99};
    if (rs_update(tables, k, r, index, bytes, before, bytes + 4, after, rooms, places, &fault) != number ||
        !told(&fault, number, first, second, third) ||
        rs_update(tables, k, r, index, bytes, before, bytes + 4, after, rooms, places, NULL) != number)
        wrong("an update fails with another fault");
}

static void refusals(void) {
    const struct rs_wanted large[2] = {{RS_RECOVERY, 0}, {RS_ORIGINAL, 3}}, larger = {RS_RECOVERY, 2},
                           twice[3] = {{1, 1}, {1, 0}, {7, 1}}, taken = {RS_ORIGINAL, 2},
                           both[2] = {{RS_RECOVERY, 0}, {RS_RECOVERY, 1}}, twice_original[2] = {{0, 0}, {0, 0}};
    static const struct rs_tables unmade;
    uint8_t before[28];
    for (size_t i = 0; i < sizeof bytes; i++) bytes[i] = (uint8_t)(i * 7);
    if (rs_encode(tables, 3, 2, 4, bytes, 12, bytes + 12, 8, NULL)) wrong("an encode fails");
    for (size_t i = 0; i < 3; i++) own[i] = (struct rs_shard){i, bytes + 4 * i, 4};
    for (size_t i = 0; i < 2; i++) other[i] = (struct rs_shard){i, bytes + 12 + 4 * i, 4};
    own[3] = (struct rs_shard){1, bytes, 6};
    other[2] = (struct rs_shard){0, bytes, 3};
    for (size_t i = 0; i < 3; i++) rooms[i] = (struct rs_room){bytes + 20 + 2 * (i ? i + 1 : 0), i ? 2 : 4};
    memcpy(before, bytes, sizeof bytes);
    refused(0, 2, own, 3, other, 2, RS_UNSUPPORTED_SHARD_COUNT, 0, 2, 0);
    refused(3, 2, NULL, 0, NULL, 0, RS_NOT_ENOUGH_SHARDS, 3, 0, 0);
    refused(3, 2, own, 3, other + 2, 1, RS_INVALID_SHARD_SIZE, 3, 0, 0);
    refused(2, 2, own, 3, other, 1, RS_INVALID_ORIGINAL_SHARD_INDEX, 2, 2, 0);
    refused(3, 1, own, 2, other, 2, RS_INVALID_RECOVERY_SHARD_INDEX, 1, 1, 0);
    refused(3, 2, own + 1, 3, other, 0, RS_DUPLICATE_ORIGINAL_SHARD_INDEX, 1, 0, 0);
    refused(3, 2, own + 2, 2, other, 0, RS_DIFFERENT_SHARD_SIZE, 4, 6, 1);
    refused(3, 2, own, 1, other, 1, RS_NOT_ENOUGH_SHARDS, 3, 1, 1);
    other[1].index = 0;
    refused(3, 2, own, 1, other, 2, RS_DUPLICATE_RECOVERY_SHARD_INDEX, 0, 0, 0);
    other[1].index = 1, other[1].length = 2;
    refused(3, 2, own, 2, other, 2, RS_DIFFERENT_SHARD_SIZE, 4, 2, 3);
    unwanted(large, 2, 2, RS_WANTED_INDEX_TOO_LARGE, 3, 3, RS_ORIGINAL, "wanted index too large: original 3, count 3");
    unwanted(&larger, 1, 0, RS_WANTED_INDEX_TOO_LARGE, 2, 2, RS_RECOVERY,
             "wanted index too large: recovery shard 2, count 2");
    unwanted(twice, 3, 3, RS_WANTED_TWICE, 1, RS_RECOVERY, 0, "shard wanted twice: recovery shard 1");
    unwanted(&taken, 1, 1, RS_WANTED_RECEIVED, 2, RS_ORIGINAL, 0, "wanted shard was received: original 2");
    unwanted(twice_original, 2, 2, RS_WANTED_RECEIVED, 0, RS_ORIGINAL, 0, "wanted shard was received: original 0");
    unwanted(both, 2, 1, RS_WRONG_NUMBER_OF_ROOMS, 2, 1, 0, "wrong number of rooms: expected 2, got 1");
    unwanted(both, 2, 2, RS_WRONG_LENGTH, 4, 2, 1, "wrong length: expected 4 bytes, got 2 bytes");
    if (rs_reconstruct(tables, 3, 2, own, 3, NULL, 0, NULL, 0, NULL, 0, NULL))
        wrong("nothing is wanted, and it is refused");
    not_updated(3, 0, 7, 3, 4, 0, RS_UNSUPPORTED_SHARD_COUNT, 3, 0, 0);
    not_updated(3, 2, 7, 3, 4, 0, RS_INVALID_SHARD_SIZE, 3, 0, 0);
    not_updated(3, 2, 3, 4, 2, 0, RS_INVALID_ORIGINAL_SHARD_INDEX, 3, 3, 0);
    not_updated(3, 2, 2, 4, 2, 0, RS_DIFFERENT_SHARD_SIZE, 4, 2, 1);
    not_updated(3, 2, 2, 4, 4, 3, RS_WRONG_NUMBER_OF_ROOMS, 2, 3, 0);
    not_updated(3, 2, 2, 4, 4, 2, RS_WRONG_LENGTH, 4, 2, 1);
    tables = (struct rs_tables *)&unmade;
    not_updated(3, 2, 2, 4, 4, 2, RS_TABLES_NOT_MADE, 0, 0, 0);
    refused(3, 2, own, 3, other, 1, RS_TABLES_NOT_MADE, 0, 0, 0);
    if (memcmp(before, bytes, sizeof bytes)) wrong("a call that fails has written");
    puts("received: refusals");
}

int main(int count, char **words) {
    make_tables();
    struct rs_tables *at = tables;
    size_t most = count == 5 ? strtoul(words[4], NULL, 10) : 0;
    if (0 < most && most <= MOST_SHARDS && !strcmp(words[1], "rounds")) {
        uint64_t state = strtoull(words[2], NULL, 10);
        for (unsigned long n = strtoul(words[3], NULL, 10); n > 0; n--) round_of(&state, most);
        puts("received: rounds");
    } else if (count == 3 && !strcmp(words[1], "pairs")) pairs(words[2]);
    else if (count == 2 && !strcmp(words[1], "refusals")) refusals();
    else wrong("no such words");
    free(at);
    return 0;
}
