/* The interface between Ceph and its erasure-code plugins, as Ceph 16.2 has it. No package of Debian contains Ceph's
 * own headers of this interface. This file was written from the names and the virtual tables of the packaged plugins,
 * and declares only what a plugin needs. `check_abi` compares it with the installed plugins. It does not see the types
 * that functions return, because the names of functions do not contain them. */
#ifndef REED_SOLOMON_SIMD_CEPH_ERASURE_CODE_H
#define REED_SOLOMON_SIMD_CEPH_ERASURE_CODE_H

#include <rados/buffer.h>
#include <map>
#include <memory>
#include <ostream>
#include <set>
#include <string>
#include <utility>
#include <vector>

/* The series of Ceph whose interface this file declares. */
#define CEPH_SERIES "16.2"

class CrushWrapper;

namespace ceph {

using ErasureCodeProfile = std::map<std::string, std::string>;

/* The order of the virtual functions is that of Ceph. */
class ErasureCodeInterface {
public:
    virtual ~ErasureCodeInterface() {}
    virtual int init(ErasureCodeProfile &profile, std::ostream *why) = 0;
    virtual const ErasureCodeProfile &get_profile() const = 0;
    virtual int create_rule(const std::string &name, CrushWrapper &crush, std::ostream *why) const = 0;
    virtual unsigned int get_chunk_count() const = 0;
    virtual unsigned int get_data_chunk_count() const = 0;
    virtual unsigned int get_coding_chunk_count() const = 0;
    virtual int get_sub_chunk_count() = 0;
    virtual unsigned int get_chunk_size(unsigned int object_size) const = 0;
    virtual int minimum_to_decode(const std::set<int> &want, const std::set<int> &available,
                                  std::map<int, std::vector<std::pair<int, int>>> *minimum) = 0;
    virtual int minimum_to_decode_with_cost(const std::set<int> &want, const std::map<int, int> &available,
                                            std::set<int> *minimum) = 0;
    virtual int encode(const std::set<int> &want, const bufferlist &in, std::map<int, bufferlist> *encoded) = 0;
    virtual int encode_chunks(const std::set<int> &want, std::map<int, bufferlist> *encoded) = 0;
    virtual int decode(const std::set<int> &want, const std::map<int, bufferlist> &chunks,
                       std::map<int, bufferlist> *decoded, int chunk_size) = 0;
    virtual int decode_chunks(const std::set<int> &want, const std::map<int, bufferlist> &chunks,
                              std::map<int, bufferlist> *decoded) = 0;
    virtual const std::vector<int> &get_chunk_mapping() const = 0;
    virtual int decode_concat(const std::map<int, bufferlist> &chunks, bufferlist *decoded) = 0;
};

using ErasureCodeInterfaceRef = std::shared_ptr<ErasureCodeInterface>;

class ErasureCodePlugin {
public:
    /* The handle that dlopen returned. Ceph sets it. */
    void *library = nullptr;
    virtual ~ErasureCodePlugin() {}
    virtual int factory(const std::string &directory, ErasureCodeProfile &profile, ErasureCodeInterfaceRef *code,
                        std::ostream *why) = 0;
};

/* The plugins that a process has loaded. Its data members are Ceph's own, and are not declared here. */
class ErasureCodePluginRegistry {
public:
    static ErasureCodePluginRegistry singleton;
    static ErasureCodePluginRegistry &instance() { return singleton; }
    int factory(const std::string &plugin, const std::string &directory, ErasureCodeProfile &profile,
                ErasureCodeInterfaceRef *code, std::ostream *why);
    int add(const std::string &name, ErasureCodePlugin *plugin);
};

}  // namespace ceph

#endif
