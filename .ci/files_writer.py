"""Writes volumes of both versions of the format (docs/FORMAT.md), with arithmetic of its own and without the program: also volumes that no
program should write. Encoding takes a second for 10 blocks of each kind, so it is for small sets."""
import functools
import hashlib
import random
import struct
from dataclasses import dataclass

FILE, LINK, FOLDER = 1, 2, 3
MAGIC_1, MAGIC_2 = bytes.fromhex("895253560D0A1A0A"), bytes.fromhex("89525356320D0A1A")
TEXT = b"Reed-Solomon volume of rs_files, format 2. FORMAT.md of rs_files describes it.".ljust(127) + b"\n"
BLOCK, PART, PART_BYTES = 1, 2, 4096
CANTOR_BASIS = [0x0001, 0xACCA, 0x3C0E, 0x163E, 0xC582, 0xED2E, 0x914C, 0x4012, 0x6C98, 0x10D8, 0x6A72, 0xB900, 0xFDB8, 0xFB34, 0xFF38, 0x991E]


@dataclass
class Item:
    """An entry of a set. A digest or a size of None is that of the bytes."""
    name: bytes
    data: bytes = b""
    kind: int = FILE
    target: bytes = b""
    mode: int = 0o644
    seconds: int = 1_700_000_000
    nanoseconds: int = 0
    digest: bytes = None
    size: int = None

    def first(self):
        """Returns the entry in the bytes of version 1."""
        size = len(self.data) if self.size is None else self.size
        return struct.pack("<QqIH", size, self.seconds, self.mode, len(self.name)) + self.name

    def second(self):
        """Returns the entry in the bytes of version 2."""
        size = len(self.data) if self.size is None else self.size
        digest = self.digest or (hashlib.sha256(self.data).digest() if self.kind == FILE else bytes(32))
        head = struct.pack("<HHIQqH", self.kind, self.mode, self.nanoseconds, size, self.seconds, len(self.name))
        return head + self.name + struct.pack("<H", len(self.target)) + self.target + digest


def polynomial_of(word):
    """Returns the polynomial of a word: the sum of the numbers of the basis at its set bits."""
    total = 0
    for i in range(16):
        total ^= CANTOR_BASIS[i] if word >> i & 1 else 0
    return total


class Field:
    """The field, with products of polynomials."""

    def __init__(self):
        self.polynomial = [polynomial_of(word) for word in range(65536)]
        self.word = [0] * 65536
        for word, polynomial in enumerate(self.polynomial):
            self.word[polynomial] = word
        self.power, self.log, value = [], [0] * 65536, 1
        for exponent in range(65535):
            self.power.append(value)
            self.log[value] = exponent
            value <<= 1
            value ^= 0x1002D if value >> 16 else 0

    def log_of_sum(self, one, other):
        """Returns the logarithm of the sum of two points."""
        return self.log[self.polynomial[one] ^ self.polynomial[other]]


def rate_of(k, r):
    """Returns the points of the originals, of the recovery blocks, and of the zeros."""
    powers = [1 << (count - 1).bit_length() for count in (k, r)]
    if powers[0] < powers[1] or powers[0] == powers[1] and k > r:
        return range(k), range(powers[0], powers[0] + r), range(k, powers[0])
    return range(powers[1], powers[1] + k), range(r), range(powers[1] + k, 65536)


FIELD = []


def words_of(block):
    """Returns the words of a block: in each chunk of 64 bytes, or in what follows the last one, the low bytes come before the high bytes."""
    words = []
    for start in range(0, len(block), 64):
        chunk = block[start:start + 64]
        words += [chunk[i] | chunk[len(chunk) // 2 + i] << 8 for i in range(len(chunk) // 2)]
    return words


def block_of(words):
    """Returns the block with these words."""
    chunks = [words[start:start + 32] for start in range(0, len(words), 32)]
    return b"".join(bytes(word & 255 for word in chunk) + bytes(word >> 8 for word in chunk) for chunk in chunks)


@functools.lru_cache(maxsize=64)
def encoded(k, r, originals):
    """Returns the recovery blocks: the values of the polynomial through the originals and the zeros, by Lagrange's formula."""
    FIELD or FIELD.append(Field())
    field, (points, places, zeros) = FIELD[0], rate_of(k, r)
    known = [*points, *zeros]
    logs = {x: sum(field.log_of_sum(x, z) for z in known if z != x) for x in (*points, *places)}
    columns = [[field.polynomial[word] for word in words_of(block)] for block in originals]
    recovery = []
    for y in places:
        factors = [(logs[y] - field.log_of_sum(y, x) - logs[x]) % 65535 for x in points]
        words = [0] * len(columns[0])
        for factor, column in zip(factors, columns):
            for j, value in enumerate(column):
                words[j] ^= field.power[(field.log[value] + factor) % 65535] if value else 0
        recovery.append(block_of([field.word[word] for word in words]))
    return recovery


def laid_out(items, unit):
    """Returns the bytes of all files end to end, where each one begins at a multiple of `unit`, and the places of the files."""
    data, places = b"", []
    for item in items:
        if item.data:
            data += bytes(-len(data) % unit)
        places.append(len(data))
        data += item.data
    return data, places


def sums_of(block):
    """Returns the two sums of an original block."""
    return struct.pack("<II", sum(block) % 2 ** 32, sum((len(block) - i) * byte for i, byte in enumerate(block)) % 2 ** 32)


class Made:
    """A set with all its blocks. `changed` changes the data before it is cut into blocks, `numbers` are other numbers of the description than
    the right ones, `edited` changes the bytes of the description, and `is_coded` says whether the recovery blocks are those of the code, or
    any bytes."""

    def __init__(self, items, block_bytes, recovery, version=2, volumes=1, fields=(), changed=None, numbers=None, edited=None, is_coded=True):
        self.items, self.block_bytes, self.version = items, block_bytes, version
        data, self.places = laid_out(items, 64 if version == 2 else block_bytes)
        data = changed(data) if changed else data
        data += bytes(-len(data) % block_bytes)
        originals = [data[at:at + block_bytes] for at in range(0, len(data), block_bytes)]
        self.k, self.r = len(originals), recovery if originals else 0
        others = random.Random(66)
        made = encoded(self.k, self.r, tuple(originals)) if is_coded and self.r else [others.randbytes(block_bytes) for _ in range(self.r)]
        self.blocks = originals + made
        self.description = self.first(numbers or {}) if version == 1 else self.second(numbers or {}, volumes, fields)
        self.description = edited(self.description) if edited else self.description
        self.set = hashlib.sha256(self.description).digest()

    def digests(self):
        """Returns the digests of all blocks."""
        return b"".join(hashlib.sha256(block).digest() for block in self.blocks)

    def first(self, other):
        """Returns the description in the bytes of version 1."""
        numbers = {"code": 1, "digest": 1, "b": self.block_bytes, "k": self.k, "r": self.r, "count": len(self.items), **other}
        return struct.pack("<IIQIII", *numbers.values()) + b"".join(item.first() for item in self.items) + self.digests()

    def second(self, other, volumes, fields):
        """Returns the description in the bytes of version 2."""
        extra = b"".join(struct.pack("<II", kind, len(text)) + text for kind, text in fields)
        numbers = {"code": 1, "digest": 1, "b": self.block_bytes, "k": self.k, "r": self.r, "count": len(self.items), "volumes": volumes,
                   "fields": len(extra), **other}
        entries = b"".join(item.second() for item in self.items)
        sums = b"".join(sums_of(block) for block in self.blocks[:self.k])
        return struct.pack("<IIQIIIII", *numbers.values()) + extra + entries + self.digests() + sums

    def record(self, kind, index, body):
        """Returns a record of version 2."""
        head = MAGIC_2 + struct.pack("<IIQ", kind, index, len(body)) + self.set
        return head + hashlib.sha256(head).digest()[:8] + body

    def copy(self):
        """Returns the records of all parts of the description."""
        whole, records = self.description, []
        for start in range(0, len(whole), PART_BYTES):
            rest = struct.pack("<Q", len(whole)) + whole[start:start + PART_BYTES]
            records.append(self.record(PART, start // PART_BYTES, hashlib.sha256(rest).digest() + rest))
        return b"".join(records)

    def block(self, index):
        """Returns the record of a block."""
        return self.record(BLOCK, index, self.blocks[index])

    def volume(self, indexes=None, copies=None):
        """Returns a volume with these blocks. By default it has all recovery blocks, and the number of copies of the page."""
        indexes = range(self.k, self.k + self.r) if indexes is None else indexes
        if self.version == 1:
            return self.first_volume(indexes)
        count, copy = len(indexes), self.copy()
        copies = copies or copies_of(count, count * (64 + self.block_bytes), len(self.description), len(copy))
        places = [j * count // (copies - 1) for j in range(copies)]
        records = [copy * places.count(i) + self.block(index) for i, index in enumerate(indexes)]
        return TEXT + b"".join(records) + copy * places.count(count)

    def first_volume(self, indexes):
        """Returns a volume of version 1."""
        head = MAGIC_1 + struct.pack("<IIQQ", 1, 0, len(self.description), len(indexes)) + self.set
        records = b"".join(struct.pack("<II", index, 0) + self.blocks[index] for index in indexes)
        return head + self.description + records + self.description + head

    def volumes(self, count):
        """Returns volumes to which all blocks are dealt in turn."""
        return [self.volume(range(first, self.k + self.r, count)) for first in range(count)]


def copies_of(count, record_bytes, description_bytes, copy_bytes):
    """Returns how many copies of the description a volume with this number of block records has."""
    least = 3 if description_bytes > 1 << 20 or 5 * copy_bytes > max(record_bytes, 1 << 16) else 5
    return max(least, min(3 + max(count, 1).bit_length() - 1, record_bytes // (100 * copy_bytes)))
