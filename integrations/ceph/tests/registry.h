/* Loads erasure-code plugins as the registry of Ceph's daemons does. No library of Ceph contains that registry. */
#ifndef REED_SOLOMON_SIMD_CEPH_REGISTRY_H
#define REED_SOLOMON_SIMD_CEPH_REGISTRY_H

#include "erasure_code.h"

/* Begins the use of plugins from this folder, for a host of this version of Ceph. Must be called first, and once. */
void start_registry(const std::string &folder, const std::string &version);

/* Returns the code of a profile, or NULL and why there is none. */
ceph::ErasureCodeInterfaceRef code_of(ceph::ErasureCodeProfile profile, std::string *why);

/* Returns bytes that depend on the seed alone, at an address that is a multiple of 4096. */
ceph::bufferlist random_bytes(size_t size, uint64_t seed);

/* Returns the bytes of a list. */
std::string text_of(const ceph::bufferlist &list);

#endif
