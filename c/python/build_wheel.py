"""Builds the wheel: the package, the shared object of the C library, and the licences. pip calls it; it needs no other
package.

The shared object comes from the folder that the environment variable BUILT names, for example c/out/aarch64 for arm64.
Otherwise this script builds it in a temporary folder, from the assembly of the proved code in c/code. That takes a C
compiler and binutils.
"""
import base64
import hashlib
import os
import platform
import struct
import subprocess
import tempfile
import zipfile

HERE = os.path.dirname(os.path.abspath(__file__))
C = os.path.dirname(HERE)
NAME, VERSION = "reed_solomon_simd_c", "1.4.0"
LIBRARY = "libreed_solomon_simd.so.1"
MACHINES = {62: "x86_64", 183: "aarch64"}


def read(*path):
    with open(os.path.join(*path), "rb") as file:
        return file.read()


def built_from_code():
    """The bytes of the shared object, built from the assembly for this processor."""
    machine = platform.machine()
    code = os.path.join(C, "code", machine)
    if not os.path.isdir(code):
        raise SystemExit(f"There is no code for {machine} in {C}/code. Set BUILT to the folder of {LIBRARY}.")
    with tempfile.TemporaryDirectory() as folder:
        done = subprocess.run(["sh", os.path.join(C, "link"), folder, machine], stdout=subprocess.PIPE,
                              stderr=subprocess.STDOUT)
        if done.returncode:
            text = done.stdout.decode(errors="replace")
            raise SystemExit(f"c/link fails, which needs a C compiler and binutils:\n{text}")
        return read(folder, LIBRARY)


def library():
    """The bytes of the shared object, and the name of its processor."""
    built = os.environ.get("BUILT")
    if built and not os.path.exists(os.path.join(built, LIBRARY)):
        raise SystemExit(f"{LIBRARY} is not in {built}, the folder that BUILT names")
    data = read(built, LIBRARY) if built else built_from_code()
    return data, MACHINES[struct.unpack_from("<H", data, 18)[0]]


def content():
    """The files of the wheel: each with its name in the wheel and its bytes."""
    shared, machine = library()
    info = f"{NAME}-{VERSION}.dist-info"
    package = os.path.join(HERE, "reed_solomon_simd")
    sources = sorted(name for name in os.listdir(package) if name.endswith((".py", ".typed")))
    made = {f"reed_solomon_simd/{name}": read(package, name) for name in sources}
    made[f"reed_solomon_simd/{LIBRARY}"] = shared
    for name in "LICENSE", "NOTICE":
        made[f"{info}/licenses/{name}"] = read(C, "..", name)
    made[f"{info}/METADATA"] = (
        f"Metadata-Version: 2.1\nName: reed-solomon-simd-c\nVersion: {VERSION}\n"
        "Summary: Reed-Solomon erasure codes over GF(2^16), proved: the C library for Python\n"
        "License: MIT AND BSD-3-Clause\nRequires-Python: >=3.8\n"
    ).encode()
    # A shared object over glibc needs version 2.17 at most. One over another C library is for this machine alone.
    system = "manylinux_2_17" if b"GLIBC_2" in shared else "linux"
    tag = f"py3-none-{system}_{machine}"
    made[f"{info}/WHEEL"] = f"Wheel-Version: 1.0\nGenerator: c/python\nRoot-Is-Purelib: false\nTag: {tag}\n".encode()
    return info, tag, made


def build_wheel(wheel_directory, config_settings=None, metadata_directory=None):
    """Writes the wheel into a folder, and returns its name. This is the hook that pip calls."""
    info, tag, made = content()
    rows = []
    for name, data in made.items():
        digest = base64.urlsafe_b64encode(hashlib.sha256(data).digest()).rstrip(b"=").decode()
        rows.append(f"{name},sha256={digest},{len(data)}\n")
    made[f"{info}/RECORD"] = "".join(rows + [f"{info}/RECORD,,\n"]).encode()
    wheel = f"{NAME}-{VERSION}-{tag}.whl"
    with zipfile.ZipFile(os.path.join(wheel_directory, wheel), "w", zipfile.ZIP_DEFLATED) as archive:
        for name, data in made.items():
            entry = zipfile.ZipInfo(name, (2026, 11, 26, 0, 0, 0))
            entry.external_attr = 0o100644 << 16
            archive.writestr(entry, data, zipfile.ZIP_DEFLATED)
    return wheel
