"""The library from Python. Words: the shared object, the file of digests of rs_scenarios, and codewords.txt of this folder."""
import ctypes
import hashlib
import os
import sys

library = ctypes.CDLL(os.path.abspath(sys.argv[1]))


class Fault(ctypes.Structure):
    _fields_ = [("number", ctypes.c_uint32), ("first", ctypes.c_size_t), ("second", ctypes.c_size_t), ("third", ctypes.c_size_t)]


class Bytes(ctypes.Structure):
    _fields_ = [("bytes", ctypes.c_char_p), ("length", ctypes.c_size_t)]


class Room(ctypes.Structure):
    _fields_ = [("bytes", ctypes.c_void_p), ("length", ctypes.c_size_t)]


class Shard(ctypes.Structure):
    _fields_ = [("index", ctypes.c_size_t), ("bytes", ctypes.c_char_p), ("length", ctypes.c_size_t)]


class Wanted(ctypes.Structure):
    _fields_ = [("kind", ctypes.c_size_t), ("index", ctypes.c_size_t)]


size, pointer = ctypes.c_size_t, ctypes.c_void_p
library.rs_encode.argtypes = [pointer, size, size, size, ctypes.c_char_p, size, pointer, size, ctypes.POINTER(Fault)]
library.rs_decode.argtypes = [pointer, size, size, size, pointer, size, ctypes.c_char_p, size, ctypes.c_char_p, size, ctypes.POINTER(Fault)]
library.rs_encode_shards.argtypes = [pointer, size, size, pointer, size, pointer, size, ctypes.POINTER(Fault)]
library.rs_decode_shards.argtypes = [pointer, size, size, pointer, size, pointer, size, pointer, size, ctypes.POINTER(Fault)]
library.rs_verify.argtypes = [pointer, size, size, pointer, size, pointer, size, ctypes.POINTER(Fault)]
library.rs_reconstruct.argtypes = [pointer, size, size, pointer, size, pointer, size, pointer, size, pointer, size, ctypes.POINTER(Fault)]
library.rs_update.argtypes = [pointer, size, size, size, ctypes.c_char_p, size, ctypes.c_char_p, size, pointer, size, ctypes.POINTER(Fault)]
library.rs_tables_make.argtypes = [pointer]
tables = ctypes.create_string_buffer(8 * 1097728)
assert library.rs_tables_make(tables) == 0


def encode(originals, r):
    n, fault, joined = len(originals[0]), Fault(), b"".join(originals)
    recovery = ctypes.create_string_buffer(r * n)
    number = library.rs_encode(tables, len(originals), r, n, joined, len(joined), recovery, r * n, fault)
    if number:
        raise ValueError(number, fault.first, fault.second, fault.third)
    return [recovery.raw[i * n:(i + 1) * n] for i in range(r)]


def decode(k, r, given):
    n, fault = len(next(iter(given.values()))), Fault()
    originals = ctypes.create_string_buffer(b"".join(given.get(i, bytes(n)) for i in range(k)), k * n)
    recovery = b"".join(given.get(k + i, bytes(n)) for i in range(r))
    marks = bytes(i in given for i in range(k + r))
    number = library.rs_decode(tables, k, r, n, originals, k * n, recovery, r * n, marks, k + r, fault)
    if number:
        raise ValueError(number, fault.first, fault.second, fault.third)
    return [originals.raw[i * n:(i + 1) * n] for i in range(k)]


def rooms_of(count, n):
    """Rooms, and the memory that they lead to."""
    memory = [ctypes.create_string_buffer(n) for _ in range(count)]
    return (Room * count)(*[(ctypes.addressof(at), n) for at in memory]), memory


def shards_of(k, given):
    """The originals and the recovery shards among these shards, whose keys are their places in the codeword: arrays with their lengths."""
    originals = [(i, shard, len(shard)) for i, shard in given.items() if i < k]
    recovery = [(i - k, shard, len(shard)) for i, shard in given.items() if i >= k]
    return (Shard * len(originals))(*originals), len(originals), (Shard * len(recovery))(*recovery), len(recovery)


def verify(k, r, given):
    """Returns the status, and checks that the fault has it, too."""
    fault = Fault(99, 99, 99, 99)
    number = library.rs_verify(tables, k, r, *shards_of(k, given), fault)
    assert number == fault.number
    return number


def reconstruct(k, r, given, places):
    """Returns the status and the shards at these places of the codeword."""
    fault, (rooms, memory) = Fault(99, 99, 99, 99), rooms_of(len(places), len(next(iter(given.values()))))
    wanted = (Wanted * len(places))(*[(int(i >= k), i - k if i >= k else i) for i in places])
    number = library.rs_reconstruct(tables, k, r, *shards_of(k, given), wanted, len(places), rooms, len(places), fault)
    assert number == fault.number
    return number, [at.raw for at in memory]


def update(k, r, index, before, after, recovery):
    """Returns the status and the updated recovery shards."""
    fault, (rooms, memory) = Fault(99, 99, 99, 99), rooms_of(r, len(recovery[0]))
    for at, shard in zip(memory, recovery):
        at.raw = shard
    number = library.rs_update(tables, k, r, index, before, len(before), after, len(after), rooms, r, fault)
    assert number == fault.number
    return number, [at.raw for at in memory]


def encode_shards(originals, r):
    fault, (rooms, memory) = Fault(), rooms_of(r, len(originals[0]))
    given = (Bytes * len(originals))(*[(shard, len(shard)) for shard in originals])
    number = library.rs_encode_shards(tables, len(originals), r, given, len(given), rooms, r, fault)
    if number:
        raise ValueError(number, fault.first, fault.second, fault.third)
    return [at.raw for at in memory]


def decode_shards(k, r, given):
    lost, fault = [i for i in range(k) if i not in given], Fault()
    rooms, memory = rooms_of(len(lost), len(next(iter(given.values()))))
    number = library.rs_decode_shards(tables, k, r, *shards_of(k, given), rooms, len(lost), fault)
    if number:
        raise ValueError(number, fault.first, fault.second, fault.third)
    restored = dict(zip(lost, (at.raw for at in memory)))
    return [given.get(i, restored.get(i)) for i in range(k)]


def drawn(seed, length):
    """The bytes of ChaCha8 with 32 seed bytes that are all `seed`."""
    def turned(x, n):
        return (x << n | x >> 32 - n) & 0xFFFFFFFF

    out, key = b"", [int.from_bytes(bytes([seed] * 4), "little")] * 8
    for block in range((length + 63) // 64):
        begin = [0x61707865, 0x3320646E, 0x79622D32, 0x6B206574] + key + [block, 0, 0, 0]
        x = list(begin)
        for step in range(8):
            for i in range(4):
                a, b, c, d = (i, 4 + i, 8 + i, 12 + i) if step % 2 == 0 else (i, 4 + (i + 1) % 4, 8 + (i + 2) % 4, 12 + (i + 3) % 4)
                for first, second, third, n in ((a, b, d, 16), (c, d, b, 12), (a, b, d, 8), (c, d, b, 7)):
                    x[first] = (x[first] + x[second]) & 0xFFFFFFFF
                    x[third] = turned(x[third] ^ x[first], n)
        out += b"".join(((p + q) & 0xFFFFFFFF).to_bytes(4, "little") for p, q in zip(x, begin))
    return out[:length]


def codeword(k, r):
    """The codeword of codewords.txt for these counts, whose shards have 66 bytes."""
    state, message = 1000 * k + r, bytearray()
    for _ in range(66 * k):
        state ^= state << 13 & 0xFFFFFFFFFFFFFFFF
        state ^= state >> 7
        state ^= state << 17 & 0xFFFFFFFFFFFFFFFF
        message.append(state >> 24 & 255)
    originals = [bytes(message[66 * i:66 * (i + 1)]) for i in range(k)]
    return originals + encode(originals, r)


def digest(shards):
    """FNV-1a with 64 bits."""
    number = 14695981039346656037
    for byte in b"".join(shards):
        number = (number ^ byte) * 1099511628211 & 0xFFFFFFFFFFFFFFFF
    return number


def lose(k, r, shards, places):
    """Shards of a codeword are lost, and come back. The others belong to one message, and with a surplus shard a damaged one is noticed."""
    left = {i: shard for i, shard in enumerate(shards) if i not in places}
    assert verify(k, r, left) == 0
    assert reconstruct(k, r, left, places) == (0, [shards[i] for i in places])
    if len(left) > k:
        place = (7 * places[0] + 3) % len(left)
        damaged = list(left)[place]
        left[damaged] = shards[damaged][:40] + bytes([shards[damaged][40] ^ 1]) + shards[damaged][41:]
        assert verify(k, r, left) == 12
        assert reconstruct(k, r, left, places) == (12, [bytes(66)] * len(places))


def change(k, r, shards, index):
    """An original changes, and the recovery shards are updated to those of an encode."""
    after = shards[index][1:] + b"#"
    originals = shards[:index] + [after] + shards[index + 1:k]
    assert update(k, r, index, shards[index], after, shards[k:]) == (0, encode(originals, r))


count = 0
case = None
for line in open(sys.argv[2]):
    words = line.split()
    if "| makes " in line and not line.startswith("#"):
        case = (words, words[words.index("makes") + 1:])
    elif line.startswith("digest -> ") and case:
        coders, (k, r, n, rule, *seed) = case
        k, r, n = int(k), int(r), int(n)
        if "default" in coders:
            if rule == "drawn":
                stream = drawn(int(seed[0]), k * n)
                originals = [stream[i * n:(i + 1) * n] for i in range(k)]
            else:
                originals = [bytes((7 * i + 13 * j + 5) % 251 for i in range(n)) for j in range(k)]
            recovery = encode(originals, r)
            assert hashlib.sha256(b"".join(recovery)).hexdigest() == words[2], line
            assert encode_shards(originals, r) == recovery
            left = dict(enumerate(originals + recovery))
            for i in range(0, min(k, r)):
                del left[i]
            assert decode(k, r, left) == originals
            assert decode_shards(k, r, left) == originals
            count += 1
assert count > 10

# Tables of zeros are noticed.
unmade, fault, recovery = ctypes.create_string_buffer(8 * 1097728), Fault(), ctypes.create_string_buffer(b"####", 4)
assert library.rs_encode(unmade, 3, 2, 2, bytes(6), 6, recovery, 4, fault) == fault.number == 15
assert recovery.raw == b"####"
for call in encode, encode_shards:
    try:
        call([b"odd"], 1)
        raise AssertionError
    except ValueError as fault:
        assert fault.args == (3, 3, 0, 0)

# The codewords of the Rust crate: each lost shard and each pair of lost shards comes back.
losses = 0
for line in open(sys.argv[3]):
    if line.startswith("#"):
        continue
    k, r, wanted = line.split()
    k, r = int(k), int(r)
    shards = codeword(k, r)
    assert digest(shards) == int(wanted, 16), line
    for first in range(k + r):
        for second in range(first, k + r if r > 1 else first + 1):
            lose(k, r, shards, sorted({first, second}))
            losses += 1
    change(k, r, shards, r % k)
assert losses > 10000

# Refusals: nothing is written.
shards = codeword(3, 2)
left = {0: shards[0], 1: shards[1], 3: shards[3]}
assert verify(3, 2, {0: shards[0], 3: shards[3]}) == 7
assert verify(0, 2, left) == 2
assert reconstruct(3, 2, left, [5]) == (16, [bytes(66)])
assert reconstruct(3, 2, left, [4, 4]) == (17, [bytes(66)] * 2)
assert reconstruct(3, 2, left, [2, 3]) == (18, [bytes(66)] * 2)
assert update(3, 2, 3, shards[0], shards[1], shards[3:]) == (8, shards[3:])
assert update(3, 2, 0, shards[0], shards[1][:64], shards[3:]) == (4, shards[3:])
print(f"python: {count} digests, {losses} times one or two lost shards come back")
