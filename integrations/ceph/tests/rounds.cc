/* Random rounds over the plugin. It is loaded as Ceph's daemons load it, and is compared with the library for C.
 *   rounds FOLDER VERSION code K M ROUNDS THREADS SEED
 *   rounds FOLDER VERSION lrc ROUNDS SEED
 *   rounds FOLDER VERSION profiles
 * FOLDER contains the plugins, and VERSION is that of Ceph. */
#include "registry.h"
#include <reed_solomon_simd.h>
#include <algorithm>
#include <cerrno>
#include <cstdio>
#include <cstdlib>
#include <cstring>
#include <functional>
#include <random>
#include <stdexcept>
#include <thread>

using namespace ceph;
using Chunks = std::map<int, bufferlist>;
using Parts = std::map<int, std::vector<std::pair<int, int>>>;

static void must(bool right, const std::string &what)
{
    if (!right)
        throw std::runtime_error(what);
}

static std::set<int> numbers_to(unsigned end)
{
    std::set<int> numbers;
    for (unsigned i = 0; i < end; i++)
        numbers.insert(numbers.end(), i);
    return numbers;
}

static ErasureCodeInterfaceRef must_have(const ErasureCodeProfile &profile)
{
    std::string why;
    auto code = code_of(profile, &why);
    must(code != nullptr, why);
    return code;
}

/* Returns the same bytes in several buffers, some of which begin at odd addresses. */
static bufferlist in_pieces(const bufferlist &whole, std::mt19937 &random)
{
    bufferlist pieces;
    for (size_t at = 0; at < whole.length();) {
        const size_t size = std::min<size_t>(whole.length() - at, 1 + random() % whole.length());
        bufferlist piece;
        piece.substr_of(whole, at, size);
        if (random() % 2) {
            bufferptr odd(buffer::create(size + 1));
            std::memcpy(odd.c_str() + 1, piece.c_str(), size);
            odd.set_offset(1);
            odd.set_length(size);
            piece.clear();
            piece.push_back(odd);
        }
        pieces.claim_append(piece);
        at += size;
    }
    return pieces;
}

/* One object, its chunks, and the chunks that are lost. */
struct Round {
    ErasureCodeInterfaceRef code;
    std::mt19937 random;
    unsigned k, n, chunk_size = 0;
    bufferlist object;
    Chunks encoded;
    std::set<int> gone, there;

    Round(ErasureCodeInterfaceRef code, unsigned seed)
        : code(code), random(seed), k(code->get_data_chunk_count()), n(code->get_chunk_count())
    {
        const size_t size = 1 + random() % (random() % 4 ? 20000 : 1000000);
        object = random_bytes(size, random());
        chunk_size = code->get_chunk_size(size);
        const bool whole = random() % 4 == 0;
        bufferlist in = whole ? object : in_pieces(object, random);
        must(code->encode(numbers_to(n), in, &encoded) == 0, "encode fails");
        must(encoded.size() == n, "encode makes another number of chunks");
        for (auto &chunk : encoded)
            must(chunk.second.length() == chunk_size, "a chunk has another size");
    }

    void lose(unsigned number)
    {
        std::vector<int> order;
        for (auto &chunk : encoded)
            order.push_back(chunk.first);
        std::shuffle(order.begin(), order.end(), random);
        gone.insert(order.begin(), order.begin() + number);
        there.insert(order.begin() + number, order.end());
    }

    /* Some of the chunks, and all lost ones. */
    std::set<int> wanted()
    {
        std::set<int> want = gone;
        for (int i : there)
            if (random() % 4 == 0)
                want.insert(i);
        return want.empty() ? std::set<int>{0} : want;
    }

    Chunks chunks_of(const std::set<int> &numbers)
    {
        Chunks chunks;
        for (int i : numbers)
            chunks[i] = random() % 2 ? encoded[i] : in_pieces(encoded[i], random);
        return chunks;
    }

    void same(Chunks &made, const std::set<int> &numbers, const char *call)
    {
        for (int i : numbers)
            must(made.count(i) && text_of(made[i]) == text_of(encoded[i]),
                 std::string(call) + " makes another chunk " + std::to_string(i));
    }

    /* The data chunks are the object with zeros after it, and the coding chunks are those of the library for C. A data
     * chunk without such zeros is no copy if the object is in one buffer. */
    void check_bytes(const rs_tables *tables)
    {
        std::string data = text_of(object), recovery((n - k) * size_t(chunk_size), 0);
        data.resize(k * size_t(chunk_size));
        auto bytes = [](std::string &text) { return reinterpret_cast<uint8_t *>(&text[0]); };
        must(rs_encode(tables, k, n - k, chunk_size, bytes(data), data.size(), bytes(recovery), recovery.size(),
                       nullptr) == RS_OK, "rs_encode fails");
        const std::string all = data + recovery;
        for (unsigned i = 0; i < n; i++)
            must(all.compare(i * size_t(chunk_size), chunk_size, text_of(encoded[i])) == 0,
                 "chunk " + std::to_string(i) + " has other bytes than in the library for C");
        Chunks again;
        must(code->encode(numbers_to(1), object, &again) == 0 && again.size() == 1, "encode makes unwanted chunks");
        must(object.length() < chunk_size || again[0].front().c_str() == object.front().c_str(),
             "encode copies a data chunk");
    }

    /* The chunks to read are available, k of them if a wanted chunk is lost, and otherwise the wanted ones. */
    std::set<int> to_read(const std::set<int> &want)
    {
        Parts minimum;
        must(code->minimum_to_decode(want, there, &minimum) == 0, "minimum_to_decode fails");
        std::set<int> chosen;
        for (auto &part : minimum) {
            must(there.count(part.first), "minimum_to_decode chooses a lost chunk");
            must(part.second == std::vector<std::pair<int, int>>{{0, 1}}, "minimum_to_decode chooses parts of a chunk");
            chosen.insert(part.first);
        }
        must(gone.empty() ? chosen == want : chosen.size() == k, "minimum_to_decode chooses too many chunks");
        if (!gone.empty())
            for (int i : want)
                must(!there.count(i) || chosen.count(i) || want.size() > k, "minimum_to_decode avoids a wanted chunk");
        return chosen;
    }

    void check_costs(const std::set<int> &want)
    {
        std::map<int, int> costs;
        std::vector<int> sorted;
        for (int i : there)
            sorted.push_back(costs[i] = random() % 100);
        std::set<int> chosen;
        must(code->minimum_to_decode_with_cost(want, costs, &chosen) == 0, "minimum_to_decode_with_cost fails");
        if (gone.empty())
            return must(chosen == want, "minimum_to_decode_with_cost chooses other chunks than the wanted ones");
        must(chosen.size() == k, "minimum_to_decode_with_cost chooses too many chunks");
        int dearest = 0, cheapest = 1000;
        for (int i : there)
            if (chosen.count(i) && !want.count(i))
                dearest = std::max(dearest, costs[i]);
            else if (!chosen.count(i))
                cheapest = std::min(cheapest, costs[i]);
        must(dearest <= cheapest, "minimum_to_decode_with_cost chooses a dearer chunk");
    }

    void check_decode(const std::set<int> &want)
    {
        Chunks decoded, chunks = chunks_of(to_read(want));
        must(code->decode(want, chunks, &decoded, chunk_size) == 0, "decode fails");
        must(decoded.size() == want.size(), "decode makes unwanted chunks");
        same(decoded, want, "decode");
        bufferlist back;
        must(code->decode_concat(chunks_of(there), &back) == 0, "decode_concat fails");
        must(back.length() == k * chunk_size && text_of(back).compare(0, object.length(), text_of(object)) == 0,
             "decode_concat makes another object");
    }

    /* decode_chunks with rooms for all lost chunks, as lrc calls it. */
    void check_rooms(const std::set<int> &want)
    {
        Chunks rooms, chunks = chunks_of(there);
        for (unsigned i = 0; i < n; i++) {
            if (there.count(i))
                rooms[i] = encoded[i];
            else
                rooms[i].push_back(bufferptr(buffer::create(chunk_size)));
        }
        must(code->decode_chunks(want, chunks, &rooms) == 0, "decode_chunks fails");
        same(rooms, numbers_to(n), "decode_chunks");
    }

    /* Fewer chunks than k, no chunk at all, and chunks whose sizes no code has. */
    void check_refusals()
    {
        std::set<int> few = there, all = numbers_to(n);
        while (few.size() >= k)
            few.erase(std::next(few.begin(), random() % few.size()));
        Parts minimum;
        Chunks decoded;
        must(code->minimum_to_decode(all, few, &minimum) == -EIO, "minimum_to_decode accepts too few chunks");
        must(code->decode(all, chunks_of(few), &decoded, chunk_size) == -EIO, "decode accepts too few chunks");
        must(code->decode(all, {}, &decoded, chunk_size) == -EIO, "decode accepts no chunks");
        Chunks odd = encoded, other = chunks_of(there);
        for (auto &chunk : odd)
            chunk.second = random_bytes(chunk_size - 1, 1);
        must(code->encode_chunks(all, &odd) == -EINVAL, "encode_chunks accepts an odd size");
        if (gone.empty())
            return;
        other.begin()->second = random_bytes(chunk_size + 64, 1);
        must(code->decode(gone, other, &decoded, chunk_size) == -EINVAL, "decode accepts chunks of two sizes");
        odd.erase(*gone.begin());
        must(code->decode(gone, odd, &decoded, chunk_size) == -EINVAL, "decode accepts an odd size");
    }
};

static void check_code(ErasureCodeInterfaceRef code, const rs_tables *tables, unsigned rounds, unsigned seed)
{
    for (unsigned i = 0; i < rounds; i++) {
        Round round(code, seed + i);
        round.check_bytes(tables);
        round.lose(round.random() % (round.n - round.k + 1));
        const std::set<int> want = round.wanted();
        round.check_decode(want);
        round.check_costs(want);
        round.check_rooms(want);
        if (i % 8 == 0)
            round.check_refusals();
    }
}

/* The layers of lrc are codes of this plugin. */
static void check_lrc(unsigned rounds, unsigned seed)
{
    const std::string name = "\"plugin=reed_solomon_simd\" ]";
    auto code = must_have({{"plugin", "lrc"}, {"mapping", "__DD__DD"},
                           {"layers", "[ [ \"_cDD_cDD\", " + name + ", [ \"cDDD____\", " + name
                                          + ", [ \"____cDDD\", " + name + " ]"}});
    unsigned restored = 0;
    for (unsigned i = 0; i < rounds; i++) {
        Round round(code, seed + i);
        round.lose(1 + round.random() % 3);
        Parts minimum;
        const bool possible = code->minimum_to_decode(round.gone, round.there, &minimum) == 0;
        must(possible || round.gone.size() > 1, "lrc cannot restore one chunk");
        if (!possible)
            continue;
        must(round.gone.size() > 1 || minimum.size() == 3, "lrc reads more than a layer for one chunk");
        std::set<int> chosen;
        for (auto &part : minimum)
            chosen.insert(part.first);
        Chunks decoded;
        must(code->decode(round.gone, round.chunks_of(chosen), &decoded, round.chunk_size) == 0, "lrc: decode fails");
        round.same(decoded, round.gone, "lrc: decode");
        restored++;
    }
    must(restored > rounds / 2, "lrc restores too few rounds");
    printf("rounds: lrc over the plugin, %u rounds, %u with chunks that it can restore: right\n", rounds, restored);
}

static void check_profiles()
{
    const ErasureCodeProfile right = {{"plugin", "reed_solomon_simd"}, {"k", "4"}, {"m", "2"}};
    auto refused = [&](const char *key, const char *value, const std::string &text) {
        ErasureCodeProfile profile = right;
        profile.erase(key);
        if (value)
            profile[key] = value;
        std::string why;
        must(code_of(profile, &why) == nullptr, std::string("a profile is accepted: ") + key + " " + text);
        must(why.find(text) != std::string::npos, "a profile is refused otherwise: " + why);
    };
    for (const char *key : {"k", "m"}) {
        refused(key, nullptr, std::string("the profile has no ") + key);
        refused(key, "", std::string("the profile has no ") + key);
        for (const char *value : {"0", "-1", "4x", "0x4", " 4", "65536", "4294967298"})
            refused(key, value, "is not a number of chunks");
    }
    refused("k", "1", "k must be at least 2, and k + m at most 128");
    refused("k", "127", "k must be at least 2, and k + m at most 128");
    refused("m", "125", "k must be at least 2, and k + m at most 128");
    for (const char *key : {"mapping", "technique", "w", "packetsize"})
        refused(key, "8", std::string("the plugin has no ") + key);
    must_have({{"plugin", "reed_solomon_simd"}, {"k", "126"}, {"m", "2"}});
    auto code = must_have({{"plugin", "reed_solomon_simd"}, {"k", "2"}, {"m", "126"}, {"crush-root", "other"}});
    auto profile = code->get_profile();
    must(profile["crush-root"] == "other" && profile["crush-failure-domain"] == "host", "keys for CRUSH are lost");
    must(code->get_chunk_size(1) == 64 && code->get_chunk_size(129) == 128 && code->get_chunk_size(0xffffffff)
             == 0x80000000, "another size of chunks");
    printf("rounds: profiles: right\n");
}

static void check_threads(unsigned k, unsigned m, unsigned rounds, unsigned threads, unsigned seed)
{
    auto code = must_have({{"plugin", "reed_solomon_simd"}, {"k", std::to_string(k)}, {"m", std::to_string(m)}});
    must(code->get_coding_chunk_count() == m && code->get_sub_chunk_count() == 1, "another number of chunks");
    std::unique_ptr<rs_tables> tables(new rs_tables);
    must(rs_tables_make(tables.get()) == RS_OK, "no tables");
    std::vector<std::string> faults(threads);
    std::vector<std::thread> running;
    for (unsigned i = 0; i < threads; i++)
        running.emplace_back([&, i] {
            try {
                check_code(code, tables.get(), rounds, seed + 1000000 * i);
            } catch (std::exception &fault) {
                faults[i] = fault.what();
            }
        });
    for (auto &thread : running)
        thread.join();
    for (auto &fault : faults)
        must(fault.empty(), fault);
    printf("rounds: %u:%u, %u threads of %u rounds: right\n", k, m, threads, rounds);
}

int main(int argc, char **argv)
try {
    auto number = [&](int at) { return at < argc ? unsigned(atoi(argv[at])) : 0; };
    const std::string mode = argc > 3 ? argv[3] : "";
    must(argc > 3, "usage: rounds FOLDER VERSION code K M ROUNDS THREADS SEED | lrc ROUNDS SEED | profiles");
    start_registry(argv[1], argv[2]);
    if (mode == "code")
        check_threads(number(4), number(5), number(6), number(7), number(8));
    else if (mode == "lrc")
        check_lrc(number(4), number(5));
    else
        check_profiles();
    return 0;
} catch (std::exception &fault) {
    printf("rounds: %s\n", fault.what());
    return 1;
}
