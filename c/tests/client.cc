// The library from C++, with shards in std::vector. Word: codewords.txt of this folder. Every lost shard, and every pair of lost shards, of the
// codewords that the Rust crate has made comes back.
#define TEST "client"
#include "helpers.h"

#include <algorithm>
#include <fstream>
#include <sstream>
#include <string>
#include <vector>

typedef std::vector<uint8_t> Shard;

// A codeword: the originals, and then the recovery shards.
struct Codeword {
    size_t k, r;
    std::vector<Shard> shards;
};

static rs_room room_of(Shard &shard) {
    rs_room room = {shard.data(), shard.size()};
    return room;
}

static Codeword made(size_t k, size_t r) {
    Codeword c = {k, r, std::vector<Shard>(k + r, Shard(66))};
    uint64_t state = 1000 * k + r;
    std::vector<rs_bytes> from;
    std::vector<rs_room> to;
    for (size_t i = 0; i < k + r; i++) {
        for (size_t j = 0; i < k && j < 66; j++) c.shards[i][j] = uint8_t(drawn(&state) >> 24);
        rs_bytes bytes = {c.shards[i].data(), c.shards[i].size()};
        if (i < k) from.push_back(bytes);
        else to.push_back(room_of(c.shards[i]));
    }
    if (rs_encode_shards(tables, k, r, from.data(), from.size(), to.data(), to.size(), NULL)) wrong("an encode fails");
    return c;
}

// FNV-1a with 64 bits.
static uint64_t digest(const Codeword &c) {
    uint64_t digest = 14695981039346656037u;
    for (size_t i = 0; i < c.shards.size(); i++)
        for (size_t j = 0; j < c.shards[i].size(); j++) digest = (digest ^ c.shards[i][j]) * 1099511628211u;
    return digest;
}

// The shards of a codeword without those at two places.
struct Received {
    std::vector<rs_shard> originals, recovery;
};

static Received left(const Codeword &c, size_t first, size_t second) {
    Received left;
    for (size_t i = 0; i < c.k + c.r; i++) {
        rs_shard shard = {i < c.k ? i : i - c.k, c.shards[i].data(), c.shards[i].size()};
        if (i != first && i != second) (i < c.k ? left.originals : left.recovery).push_back(shard);
    }
    return left;
}

static uint32_t verified(const Codeword &c, const Received &a, rs_fault *fault) {
    return rs_verify(tables, c.k, c.r, a.originals.data(), a.originals.size(), a.recovery.data(), a.recovery.size(), fault);
}

static uint32_t reconstructed(const Codeword &c, const Received &a, const std::vector<rs_wanted> &wanted, std::vector<Shard> &to, rs_fault *fault) {
    std::vector<rs_room> rooms;
    for (size_t i = 0; i < to.size(); i++) rooms.push_back(room_of(to[i]));
    return rs_reconstruct(tables, c.k, c.r, a.originals.data(), a.originals.size(), a.recovery.data(), a.recovery.size(), wanted.data(),
                          wanted.size(), rooms.data(), rooms.size(), fault);
}

// The shards at these places are lost, and come back. With a surplus shard, a damaged one is noticed, and nothing is written.
static void lose(Codeword &c, size_t first, size_t second) {
    Received a = left(c, first, second);
    std::vector<rs_wanted> wanted;
    for (size_t i = first; i <= second; i += first == second ? 1 : second - first) {
        rs_wanted one = {size_t(i < c.k ? RS_ORIGINAL : RS_RECOVERY), i < c.k ? i : i - c.k};
        wanted.push_back(one);
    }
    std::vector<Shard> to(wanted.size(), Shard(66, '#'));
    const std::vector<Shard> unchanged = to;
    rs_fault fault = {99, 99, 99, 99};
    if (verified(c, a, &fault) || !told(&fault, RS_OK, 0, 0, 0)) wrong("shards of one message are refused");
    if (reconstructed(c, a, wanted, to, &fault) || !told(&fault, RS_OK, 0, 0, 0)) wrong("lost shards don't come back");
    if (to.front() != c.shards[first] || to.back() != c.shards[second]) wrong("other shards come back");
    if (a.originals.size() + a.recovery.size() == c.k) return;
    size_t other = 0;
    while (other == first || other == second) other++;
    uint8_t &damaged = c.shards[other][40];
    damaged ^= 1;
    to = unchanged;
    if (verified(c, a, &fault) != RS_INCONSISTENT_SHARDS || reconstructed(c, a, wanted, to, NULL) != RS_INCONSISTENT_SHARDS || to != unchanged)
        wrong("a damaged shard isn't noticed");
    damaged ^= 1;
}

// The original with this index changes. Its recovery shards are updated to those of an encode.
static void change(const Codeword &c, size_t index) {
    Codeword other = c;
    std::vector<rs_bytes> from;
    std::vector<rs_room> to, updated;
    std::vector<Shard> recovery(c.shards.begin() + long(c.k), c.shards.end());
    for (size_t j = 0; j < 66; j++) other.shards[index][j] ^= uint8_t(j * j + 1);
    for (size_t i = 0; i < c.k; i++) {
        rs_bytes bytes = {other.shards[i].data(), 66};
        from.push_back(bytes);
    }
    for (size_t i = 0; i < c.r; i++) to.push_back(room_of(other.shards[c.k + i])), updated.push_back(room_of(recovery[i]));
    if (rs_encode_shards(tables, c.k, c.r, from.data(), c.k, to.data(), c.r, NULL)) wrong("an encode fails");
    if (rs_update(tables, c.k, c.r, index, c.shards[index].data(), 66, other.shards[index].data(), 66, updated.data(), c.r, NULL))
        wrong("an update fails");
    if (!std::equal(recovery.begin(), recovery.end(), other.shards.begin() + long(c.k))) wrong("an update makes other recovery shards");
}

// Faults of the calls over received shards, and their texts. Empty vectors have no data.
static void refusals() {
    const Codeword c = made(3, 2);
    const Received none, some = left(c, 2, 4);
    std::vector<rs_wanted> wanted(1);
    std::vector<Shard> to(1, Shard(66, '#'));
    rs_fault fault;
    char text[128];
    if (verified(c, none, &fault) != RS_NOT_ENOUGH_SHARDS || !told(&fault, RS_NOT_ENOUGH_SHARDS, 3, 0, 0)) wrong("no shards");
    wanted[0].kind = RS_RECOVERY, wanted[0].index = 2;
    if (reconstructed(c, some, wanted, to, &fault) != RS_WANTED_INDEX_TOO_LARGE || !told(&fault, RS_WANTED_INDEX_TOO_LARGE, 2, 2, RS_RECOVERY))
        wrong("a wanted shard that doesn't exist");
    rs_fault_text(&fault, text, sizeof text);
    if (std::string(text) != "wanted index too large: recovery shard 2, count 2") wrong("another text");
    wanted[0].index = 0;
    if (reconstructed(c, some, wanted, to, NULL) != RS_WANTED_RECEIVED) wrong("a wanted shard that was received");
    wanted[0].index = 1, wanted.push_back(wanted[0]);
    if (reconstructed(c, some, wanted, to, NULL) != RS_WANTED_TWICE) wrong("a shard that is wanted twice");
    if (std::string(rs_status_name(RS_WANTED_TWICE)) != "RS_WANTED_TWICE" || to[0] != Shard(66, '#')) wrong("a call that fails has written");
    if (rs_update(tables, 3, 2, 3, c.shards[0].data(), 66, c.shards[1].data(), 66, NULL, 0, NULL) != RS_INVALID_ORIGINAL_SHARD_INDEX)
        wrong("an original that doesn't exist");
}

int main(int count, char **words) {
    size_t codewords = 0;
    std::ifstream file(count == 2 ? words[1] : "");
    make_tables();
    for (std::string line; std::getline(file, line);) {
        std::istringstream fields(line);
        size_t k, r;
        uint64_t wanted;
        if (!(fields >> k >> r >> std::hex >> wanted)) continue;
        Codeword c = made(k, r);
        if (digest(c) != wanted) wrong("a codeword isn't that of the Rust crate");
        for (size_t first = 0; first < k + r; first++)
            for (size_t second = first; second < (r > 1 ? k + r : first + 1); second++) lose(c, first, second);
        change(c, r % k);
        codewords++;
    }
    if (codewords != 144) wrong("another number of codewords");
    refusals();
    free(tables);
    puts("client: C++");
}
