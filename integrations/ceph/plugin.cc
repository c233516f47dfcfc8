/* libec_reed_solomon_simd.so: the erasure-code plugin `reed_solomon_simd` for Ceph. docs/CEPH.md describes its profile
 * and its limits. Chunk i of an object is original i for i < k, and otherwise recovery shard i - k. */
#ifdef CEPH_SOURCE
#include "erasure-code/ErasureCodePlugin.h"
#else
#include "erasure_code.h"
#endif
#include <reed_solomon_simd.h>
#include <algorithm>
#include <array>
#include <cerrno>
#include <cstdlib>
#include <iostream>
#include <string_view>

#ifdef CEPH_SERIES
static_assert(std::string_view(CEPH_VERSION).substr(0, sizeof(CEPH_SERIES)) == CEPH_SERIES ".",
              "erasure_code.h declares the interface of another series of Ceph");
#endif

namespace {

using ceph::bufferlist;
using ceph::bufferptr;
using ceph::ErasureCodeProfile;
using Chunks = std::map<int, bufferlist>;

/* Ceph cuts the shards of an object into chunks, and encodes stripe by stripe. All cuts are at multiples of 64 bytes,
 * so the chunks of all stripes together are the shards of one message. */
constexpr unsigned ALIGNMENT = 64;

/* Ceph has the number of a chunk in 8 bits with a sign (shard_id_t in rados_types.hpp). */
constexpr unsigned CHUNKS = 128;

/* Returns the tables, which are made once for each process, or NULL if there is no memory for them. */
const rs_tables *tables()
{
    static const rs_tables *const made = [] {
        auto *room = static_cast<rs_tables *>(std::calloc(1, rs_tables_bytes()));
        if (room && rs_tables_make(room) != RS_OK) {
            std::free(room);
            room = nullptr;
        }
        return room;
    }();
    return made;
}

/* Returns what Ceph expects for a fault, and writes the text of the fault to the log of standard error. An OSD aborts
 * if a decode fails, so the text says why. */
int result(const char *call, const rs_fault &fault)
{
    if (fault.number == RS_OK)
        return 0;
    char text[256];
    if (rs_fault_text(&fault, text, sizeof text))
        std::cerr << "reed_solomon_simd: " << call << ": " << text << std::endl;
    switch (fault.number) {
    case RS_OUT_OF_MEMORY: return -ENOMEM;
    case RS_NOT_ENOUGH_SHARDS:
    case RS_INCONSISTENT_SHARDS: return -EIO;
    default: return -EINVAL;
    }
}

bufferptr room_of(unsigned size)
{
    return bufferptr(ceph::buffer::create_aligned(size, ALIGNMENT));
}

/* Reads a number of chunks. Returns 0 and writes why if the profile has no number that a code can have. */
unsigned number_of_chunks(const ErasureCodeProfile &profile, const char *key, std::ostream &why)
{
    auto at = profile.find(key);
    if (at == profile.end() || at->second.empty()) {
        why << "reed_solomon_simd: the profile has no " << key << std::endl;
        return 0;
    }
    const std::string &text = at->second;
    bool digits = text.size() <= 3 && text.find_first_not_of("0123456789") == std::string::npos;
    unsigned number = digits ? std::stoul(text) : 0;
    if (number == 0)
        why << "reed_solomon_simd: " << key << "=" << text << " is not a number of chunks" << std::endl;
    return number;
}

class Code final : public ceph::ErasureCodeInterface {
    unsigned k = 0, m = 0;
    const std::string directory;
    ErasureCodeProfile profile;
    const std::vector<int> mapping;  /* Empty: chunk i is shard i. */

    /* Refuses keys of other plugins that would promise another code. lrc passes technique=reed_sol_van to its
     * layers. */
    static bool has_foreign_key(const ErasureCodeProfile &asked, std::ostream &why)
    {
        for (const char *key : {"mapping", "technique", "w", "packetsize"}) {
            auto at = asked.find(key);
            if (at == asked.end() || (at->first == "technique" && at->second == "reed_sol_van"))
                continue;
            why << "reed_solomon_simd: the plugin has no " << key << ", so " << key << "=" << at->second
                << " cannot be in its profile" << std::endl;
            return true;
        }
        return false;
    }

    /* Writes the numbers of chunks to read into *minimum: the wanted chunks if they are all available, and otherwise k
     * chunks, of which as many as possible are wanted ones. in_order contains the available chunks, the best first. */
    int choose(const std::set<int> &want, const std::vector<int> &in_order, std::set<int> *minimum) const
    {
        const std::set<int> available(in_order.begin(), in_order.end());
        minimum->clear();
        if (std::includes(available.begin(), available.end(), want.begin(), want.end())) {
            *minimum = want;
            return 0;
        }
        if (available.size() < k)
            return -EIO;
        for (int chunk : want)
            if (minimum->size() < k && available.count(chunk))
                minimum->insert(chunk);
        for (int chunk : in_order)
            if (minimum->size() < k)
                minimum->insert(chunk);
        return 0;
    }

    /* Returns the data chunk with this number: a part of the object, with zeros after the object's last byte. Only a
     * chunk that needs such zeros is a copy. */
    static bufferlist data_chunk(const bufferlist &object, unsigned number, unsigned size)
    {
        bufferlist chunk;
        const uint64_t from = uint64_t(number) * size;
        if (from + size <= object.length()) {
            chunk.substr_of(object, from, size);
            return chunk;
        }
        bufferptr room = room_of(size);
        const unsigned rest = from < object.length() ? object.length() - from : 0;
        if (rest)
            object.begin(from).copy(rest, room.c_str());
        room.zero(rest, size - rest);
        chunk.push_back(std::move(room));
        return chunk;
    }

public:
    explicit Code(const std::string &directory) : directory(directory) {}

    int init(ErasureCodeProfile &asked, std::ostream *why) override
    {
        k = number_of_chunks(asked, "k", *why);
        m = k ? number_of_chunks(asked, "m", *why) : 0;
        if (k == 0 || m == 0 || has_foreign_key(asked, *why))
            return -EINVAL;
        if (k < 2 || k + m > CHUNKS || !rs_supports(k, m)) {
            *why << "reed_solomon_simd: k=" << k << " m=" << m << " is not supported: k must be at least 2, and k + m "
                 << "at most " << CHUNKS << std::endl;
            return -EINVAL;
        }
        if (!tables()) {
            *why << "reed_solomon_simd: no memory for the tables" << std::endl;
            return -ENOMEM;
        }
        asked.emplace("crush-root", "default");
        asked.emplace("crush-failure-domain", "host");
        asked.emplace("crush-device-class", "");
        profile = asked;
        return 0;
    }

    const ErasureCodeProfile &get_profile() const override { return profile; }

    /* The rule is the one that Ceph's own plugin jerasure makes for these counts. It sets how many chunks the rule
     * allows, which no function does that Ceph exports. */
    int create_rule(const std::string &name, CrushWrapper &crush, std::ostream *why) const override
    {
        ErasureCodeProfile same_counts = {{"plugin", "jerasure"}, {"technique", "reed_sol_van"}, {"w", "8"},
                                          {"k", std::to_string(k)}, {"m", std::to_string(m)}};
        for (const auto &entry : profile)
            if (entry.first.rfind("crush-", 0) == 0)
                same_counts.insert(entry);
        ceph::ErasureCodeInterfaceRef code;
        auto &registry = ceph::ErasureCodePluginRegistry::instance();
        const int failed = registry.factory("jerasure", directory, same_counts, &code, why);
        return failed ? failed : code->create_rule(name, crush, why);
    }

    unsigned int get_chunk_count() const override { return k + m; }
    unsigned int get_data_chunk_count() const override { return k; }
    unsigned int get_coding_chunk_count() const override { return m; }
    int get_sub_chunk_count() override { return 1; }
    const std::vector<int> &get_chunk_mapping() const override { return mapping; }

    unsigned int get_chunk_size(unsigned int object_size) const override
    {
        return (uint64_t(object_size) + k * ALIGNMENT - 1) / (k * ALIGNMENT) * ALIGNMENT;
    }

    int minimum_to_decode(const std::set<int> &want, const std::set<int> &available,
                          std::map<int, std::vector<std::pair<int, int>>> *minimum) override
    {
        std::set<int> chosen;
        const int failed = choose(want, {available.begin(), available.end()}, &chosen);
        minimum->clear();
        for (int chunk : chosen)
            (*minimum)[chunk].emplace_back(0, 1);
        return failed;
    }

    int minimum_to_decode_with_cost(const std::set<int> &want, const std::map<int, int> &available,
                                    std::set<int> *minimum) override
    {
        std::vector<int> in_order;
        for (const auto &chunk : available)
            in_order.push_back(chunk.first);
        std::stable_sort(in_order.begin(), in_order.end(),
                         [&](int a, int b) { return available.at(a) < available.at(b); });
        return choose(want, in_order, minimum);
    }

    int encode(const std::set<int> &want, const bufferlist &in, Chunks *encoded) override
    {
        const unsigned size = get_chunk_size(in.length());
        encoded->clear();
        for (unsigned i = 0; i < k; i++)
            encoded->emplace_hint(encoded->end(), i, data_chunk(in, i, size));
        for (unsigned i = k; i < k + m; i++)
            encoded->emplace_hint(encoded->end(), i, bufferlist())->second.push_back(room_of(size));
        const int failed = size ? encode_chunks(want, encoded) : 0;
        for (unsigned i = 0; i < k + m; i++)
            if (!want.count(i))
                encoded->erase(i);
        return failed;
    }

    /* Writes the coding chunks into their rooms. c_str makes one buffer of a chunk that is in several. */
    int encode_chunks(const std::set<int> &, Chunks *encoded) override
    {
        std::array<rs_bytes, CHUNKS> originals;
        std::array<rs_room, CHUNKS> recovery;
        for (unsigned i = 0; i < k + m; i++) {
            auto chunk = encoded->find(i);
            if (chunk == encoded->end())
                return -EINVAL;
            auto bytes = reinterpret_cast<uint8_t *>(chunk->second.c_str());
            if (i < k)
                originals[i] = {bytes, chunk->second.length()};
            else
                recovery[i - k] = {bytes, chunk->second.length()};
        }
        rs_fault fault = {};
        (void)!rs_encode_shards(tables(), k, m, originals.data(), k, recovery.data(), m, &fault);
        return result("encode", fault);
    }

    /* Writes each chunk that has a room in *decoded and is not among the chunks, from the first k of the chunks. lrc
     * takes all chunks with rooms for restored, and not only the wanted ones. */
    int decode_chunks(const std::set<int> &, const Chunks &chunks, Chunks *decoded) override
    {
        std::array<rs_shard, CHUNKS> originals, recovery;
        std::array<rs_wanted, CHUNKS> wanted;
        std::array<rs_room, CHUNKS> rooms;
        size_t originals_number = 0, recovery_number = 0, wanted_number = 0;
        std::vector<bufferlist> joined;
        joined.reserve(chunks.size());
        for (const auto &[number, list] : chunks) {
            const unsigned i = number;
            if (i >= k + m)
                return -EINVAL;
            if (originals_number + recovery_number == k)
                break;
            const rs_shard shard = {i < k ? i : i - k, bytes_of(list, joined), list.length()};
            (i < k ? originals[originals_number++] : recovery[recovery_number++]) = shard;
        }
        for (auto &[number, list] : *decoded) {
            const unsigned i = number;
            if (i >= k + m)
                return -EINVAL;
            if (chunks.count(number))
                continue;
            wanted[wanted_number] = {size_t(i < k ? RS_ORIGINAL : RS_RECOVERY), i < k ? i : i - k};
            rooms[wanted_number++] = {reinterpret_cast<uint8_t *>(list.c_str()), list.length()};
        }
        rs_fault fault = {};
        (void)!rs_reconstruct(tables(), k, m, originals.data(), originals_number, recovery.data(), recovery_number,
                              wanted.data(), wanted_number, rooms.data(), wanted_number, &fault);
        return result("decode", fault);
    }

    int decode(const std::set<int> &want, const Chunks &chunks, Chunks *decoded, int) override
    {
        if (chunks.empty())
            return -EIO;
        const unsigned size = chunks.begin()->second.length();
        bool lost = false;
        decoded->clear();
        for (int number : want) {
            auto chunk = chunks.find(number);
            if (chunk != chunks.end()) {
                (*decoded)[number] = chunk->second;
            } else {
                (*decoded)[number].push_back(room_of(size));
                lost = true;
            }
        }
        return lost ? decode_chunks(want, chunks, decoded) : 0;
    }

    int decode_concat(const Chunks &chunks, bufferlist *decoded) override
    {
        std::set<int> want;
        Chunks data;
        for (unsigned i = 0; i < k; i++)
            want.insert(want.end(), i);
        const int failed = decode(want, chunks, &data, 0);
        if (failed == 0)
            for (auto &chunk : data)
                decoded->claim_append(chunk.second);
        return failed;
    }

private:
    /* Returns where the bytes of a chunk are. If they are in several buffers, one buffer with a copy is added to
     * `joined`. */
    static const uint8_t *bytes_of(const bufferlist &list, std::vector<bufferlist> &joined)
    {
        if (list.length() == 0)
            return nullptr;
        if (list.is_contiguous())
            return reinterpret_cast<const uint8_t *>(list.front().c_str());
        joined.push_back(list);
        return reinterpret_cast<const uint8_t *>(joined.back().c_str());
    }
};

class Plugin final : public ceph::ErasureCodePlugin {
    int factory(const std::string &directory, ErasureCodeProfile &profile, ceph::ErasureCodeInterfaceRef *code,
                std::ostream *why) override
    {
        auto made = std::make_shared<Code>(directory);
        const int failed = made->init(profile, why);
        if (failed == 0)
            *code = made;
        return failed;
    }
};

}  // namespace

/* Ceph compares this text with its own version, and refuses a plugin that was built for another one. */
extern "C" __attribute__((visibility("default"))) const char *__erasure_code_version()
{
    return CEPH_VERSION;
}

extern "C" __attribute__((visibility("default"))) int __erasure_code_init(char *name, char *)
{
    auto plugin = std::make_unique<Plugin>();
    const int failed = ceph::ErasureCodePluginRegistry::instance().add(name, plugin.get());
    if (failed == 0)
        plugin.release();
    return failed;
}
