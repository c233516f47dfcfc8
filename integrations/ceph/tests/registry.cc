#include "registry.h"
#include <rados/librados.h>
#include <dlfcn.h>
#include <cerrno>
#include <cstring>
#include <mutex>
#include <random>
#include <sstream>
#include <stdexcept>

/* Plugins of Ceph write to the log of the process by this pointer. */
namespace ceph::common {
class CephContext;
}
namespace ceph::global {
extern ceph::common::CephContext *g_ceph_context;
}

namespace {

std::string plugin_folder, host_version;
std::map<std::string, std::unique_ptr<ceph::ErasureCodePlugin>> loaded;
std::mutex loading;

/* Loads a plugin, and refuses it if its version is not that of the host. The lock is held. */
int load(const std::string &name, std::ostream *why)
{
    const std::string file = plugin_folder + "/libec_" + name + ".so";
    void *library = dlopen(file.c_str(), RTLD_NOW);
    if (!library) {
        *why << dlerror();
        return -EIO;
    }
    auto version = reinterpret_cast<const char *(*)()>(dlsym(library, "__erasure_code_version"));
    auto begin = reinterpret_cast<int (*)(const char *, const char *)>(dlsym(library, "__erasure_code_init"));
    if (!version || !begin) {
        *why << file << " has no entry points";
        return -ENOENT;
    }
    if (version() != host_version) {
        *why << "expected plugin " << file << " version " << host_version << " but it claims to be " << version()
             << " instead";
        return -EXDEV;
    }
    return begin(name.c_str(), plugin_folder.c_str());
}

}  // namespace

namespace ceph {

ErasureCodePluginRegistry ErasureCodePluginRegistry::singleton;

int ErasureCodePluginRegistry::add(const std::string &name, ErasureCodePlugin *plugin)
{
    if (loaded.count(name))
        return -EEXIST;
    loaded[name].reset(plugin);
    return 0;
}

int ErasureCodePluginRegistry::factory(const std::string &name, const std::string &directory,
                                       ErasureCodeProfile &profile, ErasureCodeInterfaceRef *code, std::ostream *why)
{
    {
        std::lock_guard<std::mutex> held(loading);
        if (!loaded.count(name))
            if (int failed = load(name, why))
                return failed;
    }
    if (int failed = loaded.at(name)->factory(directory, profile, code, why))
        return failed;
    if (profile != (*code)->get_profile()) {
        *why << "the profile and that of the code differ";
        return -EINVAL;
    }
    return 0;
}

}  // namespace ceph

void start_registry(const std::string &folder, const std::string &version)
{
    plugin_folder = folder;
    host_version = version;
    rados_t client;
    if (rados_create(&client, nullptr) < 0)
        throw std::runtime_error("rados_create fails");
    ceph::global::g_ceph_context = static_cast<ceph::common::CephContext *>(rados_cct(client));
}

ceph::ErasureCodeInterfaceRef code_of(ceph::ErasureCodeProfile profile, std::string *why)
{
    ceph::ErasureCodeInterfaceRef code;
    std::ostringstream text;
    auto &registry = ceph::ErasureCodePluginRegistry::instance();
    const int failed = registry.factory(profile["plugin"], plugin_folder, profile, &code, &text);
    *why = text.str();
    return failed ? nullptr : code;
}

ceph::bufferlist random_bytes(size_t size, uint64_t seed)
{
    std::mt19937_64 random(seed);
    ceph::bufferptr bytes(ceph::buffer::create_aligned(size, 4096));
    for (size_t at = 0; at < size; at += 8) {
        const uint64_t word = random();
        std::memcpy(bytes.c_str() + at, &word, std::min<size_t>(8, size - at));
    }
    ceph::bufferlist list;
    list.push_back(std::move(bytes));
    return list;
}

std::string text_of(const ceph::bufferlist &list)
{
    ceph::bufferlist copy(list);
    return std::string(copy.c_str(), copy.length());
}
