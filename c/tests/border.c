/* rs_reconstruct on both sides of the rule by which the library chooses between sums and a decode over rows. It sums
   few wanted and surplus shards over the received ones, and needs no rows. It decodes more of them over rows. The
   counts alone decide. This test doesn't know where the border is: for each of some counts it wants one shard, two
   shards, and so on up to all that are lost, and finds out by the requests for memory which way was taken. */
#include "counted.h"
#define TEST "border"
#include "helpers.h"

/* The most shards of a codeword, and what c/heap.c adds to a request. */
enum { MOST = 130, OF_HEAP = 64 };

struct codeword {
    size_t k, r, size;
    uint8_t *shards;
};

static struct codeword made(size_t k, size_t r, size_t size) {
    struct codeword c = {k, r, size, room((k + r) * size)};
    uint64_t state = 1000 * k + r;
    for (size_t i = 0; i < k * size; i++) c.shards[i] = (uint8_t)(drawn(&state) >> 24);
    if (rs_encode(tables, k, r, size, c.shards, k * size, c.shards + k * size, r * size, NULL))
        wrong("an encode fails");
    return c;
}

/* The place of the shard that gets lost after `number` others: originals and recovery shards in turn, as long as there
   are both. */
static size_t place_of(const struct codeword *c, size_t number) {
    size_t both = 2 * (c->k < c->r ? c->k : c->r);
    if (number < both) return number % 2 ? c->k + number / 2 : number / 2;
    return c->k < c->r ? number : number - c->r;
}

/* Reconstructs as many of the lost shards as are wanted, and compares them. Returns whether the call has no rows. */
static int is_summed(const struct codeword *c, size_t lost, size_t wanted_number) {
    static struct rs_shard received[2][MOST];
    static struct rs_wanted wanted[MOST];
    static struct rs_room rooms[MOST];
    size_t counts[2] = {0, 0}, used = heap_used;
    for (size_t i = 0; i < c->k + c->r; i++) {
        size_t place = place_of(c, i), kind = place >= c->k, index = kind ? place - c->k : place;
        struct rs_shard shard = {index, c->shards + place * c->size, c->size};
        if (i >= lost) received[kind][counts[kind]++] = shard;
        if (i < wanted_number) {
            wanted[i].kind = kind, wanted[i].index = index;
            rooms[i].bytes = memset(room(c->size), '#', c->size), rooms[i].length = c->size;
        }
    }
    watched = bytes_of_rows(c->k, c->r, c->size) + OF_HEAP;
    requests_watched = 0;
    if (rs_reconstruct(tables, c->k, c->r, received[0], counts[0], received[1], counts[1], wanted, wanted_number, rooms,
                       wanted_number, NULL))
        wrong("wanted shards aren't reconstructed");
    for (size_t i = 0; i < wanted_number; i++)
        if (memcmp(rooms[i].bytes, c->shards + place_of(c, i) * c->size, c->size))
            wrong("another shard is reconstructed");
    heap_used = used;
    return !requests_watched;
}

/* All numbers of wanted shards, for these counts, this size and this many surplus shards. Returns up to which number
   shards are summed. */
static size_t swept(size_t k, size_t r, size_t size, size_t surplus) {
    size_t used = heap_used, summed = 0, lost = r - surplus;
    struct codeword c = made(k, r, size);
    for (size_t wanted = 1; wanted <= lost; wanted++)
        if (is_summed(&c, lost, wanted) && ++summed != wanted) wrong("many shards are summed, and fewer are not");
    heap_used = used;
    return summed;
}

int main(void) {
    static const size_t counts[][2] = {{8, 8}, {9, 16}, {12, 12}, {32, 32}, {33, 31}, {100, 30}, {30, 100}};
    make_tables();
    for (size_t i = 0; i < sizeof counts / sizeof *counts; i++) {
        size_t k = counts[i][0], r = counts[i][1], summed[3];
        for (size_t surplus = 0; surplus < 3; surplus++) {
            summed[surplus] = swept(k, r, 4130, surplus);
            if (swept(k, r, 300, surplus) != summed[surplus]) wrong("the size of shards decides, too");
        }
        if (summed[0] == 0 || summed[0] == r) wrong("the numbers of wanted shards are all on one side");
        printf("border: %zu:%zu: sums for up to %zu of %zu wanted shards, and for up to %zu with a surplus shard\n", k,
               r, summed[0], r, summed[1]);
    }
    return 0;
}
