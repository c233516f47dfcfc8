/* Measures plugins of Ceph in one run: encoding, restoring one data chunk, and restoring as many data chunks as there
 * are coding chunks.
 *   bench FOLDER VERSION K M TURNS MILLISECONDS STRIPE_UNIT SIZE..
 * It encodes objects of SIZE bytes stripe by stripe, as an OSD does, with chunks of STRIPE_UNIT bytes in each stripe.
 * If STRIPE_UNIT is 0, each object is one stripe. Chunks to read are those that minimum_to_decode chooses. It prints
 * lines `k,m,size,stripe unit,plugin,call,median,quartile,quartile` in 10^6 bytes of objects for each second of the
 * processor, because other work may share the machine. */
#include "registry.h"
#include <algorithm>
#include <cstdio>
#include <cstdlib>
#include <ctime>
#include <functional>
#include <iostream>

using namespace ceph;
using Chunks = std::map<int, bufferlist>;

struct Setting {
    unsigned k, m, turns, milliseconds, unit;
    size_t size;
};

struct Case {
    std::string name;
    std::function<bool()> run;
    size_t bytes;
    std::vector<double> rates;
};

static double seconds()
{
    timespec time;
    clock_gettime(CLOCK_THREAD_CPUTIME_ID, &time);
    return time.tv_sec + time.tv_nsec / 1e9;
}

[[noreturn]] static void fail(const std::string &what)
{
    std::cerr << "bench: " << what << std::endl;
    exit(1);
}

/* The stripes of an object, and their chunks. */
struct Coded {
    ErasureCodeInterfaceRef code;
    std::set<int> all;
    std::vector<bufferlist> stripes;
    std::vector<Chunks> chunks;
    size_t bytes = 0;

    Coded(ErasureCodeInterfaceRef code, const Setting &setting) : code(code)
    {
        for (unsigned i = 0; i < setting.k + setting.m; i++)
            all.insert(i);
        const bufferlist object = random_bytes(setting.size, 1);
        const size_t stripe = setting.unit ? size_t(code->get_chunk_size(setting.unit * setting.k)) * setting.k
                                           : setting.size;
        for (size_t at = 0; at + stripe <= setting.size; at += stripe) {
            bufferlist part;
            part.substr_of(object, at, stripe);
            stripes.push_back(part);
            chunks.emplace_back();
            if (code->encode(all, part, &chunks.back()))
                fail("encode fails");
        }
        bytes = stripes.size() * stripe;
    }

    /* The chunks that are read of each stripe if these chunks are lost. */
    std::vector<Chunks> read_without(const std::set<int> &gone)
    {
        std::vector<Chunks> read;
        std::set<int> there;
        std::set_difference(all.begin(), all.end(), gone.begin(), gone.end(), std::inserter(there, there.end()));
        for (auto &stripe : chunks) {
            std::map<int, std::vector<std::pair<int, int>>> minimum;
            Chunks few, decoded;
            if (code->minimum_to_decode(gone, there, &minimum))
                fail("minimum_to_decode fails");
            for (auto &part : minimum)
                few[part.first] = stripe[part.first];
            if (code->decode(gone, few, &decoded, 0))
                fail("decode fails");
            for (int i : gone)
                if (text_of(decoded[i]) != text_of(stripe[i]))
                    fail("decode makes another chunk");
            read.push_back(few);
        }
        return read;
    }
};

static void add_cases(std::vector<Case> &cases, const std::string &name, ErasureCodeInterfaceRef code,
                      const Setting &setting)
{
    auto coded = std::make_shared<Coded>(code, setting);
    if (coded->stripes.empty())
        fail("the object is smaller than a stripe");
    cases.push_back({name + ",encode", [=] {
        for (auto &stripe : coded->stripes) {
            Chunks encoded;
            if (code->encode(coded->all, stripe, &encoded))
                return false;
        }
        return true;
    }, coded->bytes, {}});
    for (unsigned lost : {1u, std::min(setting.k, setting.m)}) {
        std::set<int> gone;
        for (unsigned i = 0; i < lost; i++)
            gone.insert(i);
        auto read = std::make_shared<std::vector<Chunks>>(coded->read_without(gone));
        cases.push_back({name + (cases.back().name.find("encode") != std::string::npos ? ",one" : ",all"), [=] {
            for (auto &few : *read) {
                Chunks decoded;
                if (code->decode(gone, few, &decoded, 0))
                    return false;
            }
            return true;
        }, coded->bytes, {}});
    }
}

static void measure(Case &one, unsigned milliseconds)
{
    const double from = seconds();
    double to = from;
    size_t runs = 0;
    while (to - from < milliseconds / 1e3) {
        if (!one.run())
            fail(one.name + " fails");
        runs++;
        to = seconds();
    }
    one.rates.push_back(one.bytes * runs / (to - from) / 1e6);
}

static void compare(const Setting &setting, bool first)
{
    std::vector<Case> cases;
    for (const char *plugin : {"reed_solomon_simd", "isa/reed_sol_van", "isa/cauchy", "jerasure/reed_sol_van"}) {
        const std::string name = plugin;
        const size_t slash = name.find('/');
        ErasureCodeProfile profile = {{"plugin", name.substr(0, slash)}, {"k", std::to_string(setting.k)},
                                      {"m", std::to_string(setting.m)}};
        if (slash != std::string::npos)
            profile["technique"] = name.substr(slash + 1);
        std::string why = "it has other counts or sizes of chunks";
        auto code = code_of(profile, &why);
        const bool same = code && code->get_data_chunk_count() == setting.k
                          && code->get_coding_chunk_count() == setting.m
                          && (setting.unit == 0 || code->get_chunk_size(setting.unit * setting.k) == setting.unit);
        if (same)
            add_cases(cases, name, code, setting);
        else if (first)
            std::cerr << "bench: " << setting.k << ":" << setting.m << " " << name << ": " << why << std::endl;
    }
    for (unsigned turn = 0; turn < setting.turns; turn++)
        for (auto &one : cases)
            measure(one, setting.milliseconds);
    for (auto &one : cases) {
        std::sort(one.rates.begin(), one.rates.end());
        const size_t n = one.rates.size();
        printf("%u,%u,%zu,%u,%s,%.0f,%.0f,%.0f\n", setting.k, setting.m, setting.size, setting.unit, one.name.c_str(),
               one.rates[n / 2], one.rates[n / 4], one.rates[3 * n / 4]);
    }
    fflush(stdout);
}

int main(int argc, char **argv)
{
    if (argc < 9)
        fail("usage: bench FOLDER VERSION K M TURNS MILLISECONDS STRIPE_UNIT SIZE..");
    start_registry(argv[1], argv[2]);
    auto number = [&](int at) { return unsigned(atoi(argv[at])); };
    for (int i = 8; i < argc; i++)
        compare({number(3), number(4), number(5), number(6), number(7), strtoul(argv[i], nullptr, 10)}, i == 8);
}
