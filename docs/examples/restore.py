#!/usr/bin/env python3
"""Restores files from volumes of rs_files, of version 1 and 2 of the format (docs/FORMAT.md). It needs Python 3 and
nothing else. It is slow, and holds the files and the volumes in memory.

Usage: restore.py NEW PLACE..

Each PLACE is a volume, or a folder that holds files of the set: their whole blocks are used. All files of the set are
written into the folder NEW. NEW must not exist yet. So no file is replaced, and nothing is written through a symbolic
link of somebody else."""
import os
import struct
import sys
from collections import namedtuple
from hashlib import sha256
from itertools import product

# ---- The code: products of words, and lost blocks

BASIS = (0x0001, 0xACCA, 0x3C0E, 0x163E, 0xC582, 0xED2E, 0x914C, 0x4012,
         0x6C98, 0x10D8, 0x6A72, 0xB900, 0xFDB8, 0xFB34, 0xFF38, 0x991E)


def powers_of_the_generator():
    """Returns the powers of the generator with the exponents from 0 to 65534."""
    polynomials = [0]
    for number in BASIS:
        polynomials += [before ^ number for before in polynomials]
    word_of = {polynomial: word for word, polynomial in enumerate(polynomials)}
    powers, power = [], 1
    for _ in range(65535):
        powers.append(word_of[power])
        power = power << 1 ^ (0x1002D if power & 0x8000 else 0)
    return powers


POWERS = powers_of_the_generator()
LOG = [0] * 65536
for exponent, value in enumerate(POWERS):
    LOG[value] = exponent


def products(log, bit):
    """Returns the products of the words 0, 2^bit, .., 255 * 2^bit with the word of this logarithm: their low bytes, and
    their high bytes."""
    words = [0]
    for i in range(bit, bit + 8):
        one = POWERS[(LOG[1 << i] + log) % 65535]
        words += [word ^ one for word in words]
    packed = struct.pack("<256H", *words)
    return packed[::2], packed[1::2]


def halves(block):
    """Returns the low bytes and the high bytes of the words of a block."""
    chunks = [block[at:at + 64] for at in range(0, len(block), 64)]
    return b"".join(c[:len(c) // 2] for c in chunks), b"".join(c[len(c) // 2:] for c in chunks)


def power_of(count):
    """Returns a count rounded up to a power of two."""
    return 1 << (count - 1).bit_length()


def decode(k, r, found, missing):
    """Returns the missing blocks, by their indexes. `found` has at least k blocks."""
    is_low = (power_of(k), -k) < (power_of(r), -r)
    m = power_of(k if is_low else r)
    point = {i: i + (m - k if i >= k else 0) if is_low else i + (m if i < k else -k) for i in range(k + r)}
    given = {point[i]: halves(found[i]) for i in sorted(found)[:k]}
    # The logarithm of the product of x + y over all known points y other than x. At the high rate, it follows from the
    # other points, because the product over all points y other than x is 1. LOG[0] is 0.
    near, sign = ({*given, *range(k, m)}, 1) if is_low else ({*range(m + k)} - {*given}, -1)
    locator = {x: sign * sum(LOG[x ^ y] for y in near) for x in {*given, *(point[i] for i in missing)}}
    restored, count = {}, len(next(iter(given.values()))[0])
    for i in missing:
        low = high = 0
        for x, both in given.items():
            log = locator[point[i]] - locator[x] - LOG[point[i] ^ x]
            for half, bit in zip(both, (0, 8)):
                low_products, high_products = products(log, bit)
                low ^= int.from_bytes(half.translate(low_products), "little")
                high ^= int.from_bytes(half.translate(high_products), "little")
        low, high = low.to_bytes(count, "little"), high.to_bytes(count, "little")
        restored[i] = b"".join(low[at:at + 32] + high[at:at + 32] for at in range(0, count, 32))
    return restored


# ---- Descriptions

FILE, LINK, FOLDER = 1, 2, 3
Entry = namedtuple("Entry", "kind mode nanoseconds size seconds name target digest")
Description = namedtuple("Description", "version b k r entries digests")


def check(holds, fault):
    """Fails if a rule of the format does not hold."""
    if not holds:
        raise ValueError(fault)


class Bytes:
    """Bytes that are read from the front to the end."""

    def __init__(self, text):
        self.text, self.at = text, 0

    def take(self, form):
        """Returns the next number, or the next numbers or bytes."""
        try:
            values = struct.unpack_from("<" + form, self.text, self.at)
        except struct.error:
            raise ValueError("the description ends too early") from None
        self.at += struct.calcsize("<" + form)
        return values if len(values) > 1 else values[0]


def read_first(text):
    """Returns the description of version 1 at the front of bytes, and its length, if it keeps all rules."""
    reader, entries = Bytes(text), []
    code, digest, b, k, r, count = reader.take("IIQIII")
    for _ in range(count):
        size, seconds, mode, length = reader.take("QqIH")
        name = reader.take(f"{length}s")
        check(name.decode(errors="ignore").encode() == name, "a name is not UTF-8")
        entries.append(Entry(FILE, mode & 0o7777, 0, size, seconds, name, b"", None))
    names = [entry.name for entry in entries]
    check(names == sorted({*names}), "the names are not in order")
    description = checked(Description(1, b, k, r, entries, reader.take(f"{32 * (k + r)}s")), code, digest)
    longest = max((entry.size for entry in entries), default=0)
    check(b <= max(1 << 26, -(-longest // 4096) * 4096), "the blocks are larger than the files")
    return description, reader.at


def read_second(text):
    """Returns the description of version 2 in these bytes, if it keeps all rules."""
    reader, entries = Bytes(text), []
    code, digest, b, k, r, count, volumes, field_bytes = reader.take("IIQIIIII")
    fields = Bytes(reader.take(f"{field_bytes}s"))
    while fields.at < field_bytes:
        kind, length = fields.take("II")
        check(kind < 1 << 31, "a newer program may read this description")
        fields.take(f"{length}s")
    for _ in range(count):
        kind, mode, nanoseconds, size, seconds, length = reader.take("HHIQqH")
        name = reader.take(f"{length}s")
        target = reader.take(f"{reader.take('H')}s")
        entries.append(Entry(kind, mode, nanoseconds, size, seconds, name, target, reader.take("32s")))
    description = checked(Description(2, b, k, r, entries, reader.take(f"{32 * (k + r)}s")), code, digest)
    reader.take(f"{8 * k}s")
    check(reader.at == len(text), "bytes follow the description")
    check(volumes > 0, "the number of volumes is 0")
    check(b <= max(4096, -(-end_of(description) // 4096) * 4096), "the blocks are larger than the data")
    for entry in entries:
        check_entry(entry)
    names = [entry.name for entry in entries]
    check(names == sorted({*names}, key=lambda name: name.replace(b"/", b"\0")), "the names are not in order")
    check(not any(b.startswith(a + b"/") for a, b in zip(names, names[1:])), "a name is the folder of another name")
    return description


def check_entry(entry):
    """Checks the rules of version 2 for one entry."""
    check(FILE <= entry.kind <= FOLDER, "an entry has an unknown kind")
    check(entry.mode < 4096 and entry.nanoseconds < 10 ** 9, "the permission bits or the time are too large")
    check(entry.kind == FILE or entry.size == 0 and entry.digest == bytes(32), "a link or a folder has bytes")
    check((entry.kind == LINK) == (entry.target != b""), "a link has no target, or another entry has one")
    check(b"\0" not in entry.target, "the target of a link is not allowed")


def checked(description, code, digest):
    """Returns a description, if it keeps the rules that both versions have."""
    b, k, r = description.b, description.k, description.r
    check(code == 1 and digest == 1, "the code or the digest is not known")
    check(b % 2 == 0 and 2 <= b <= 1 << 40, "the block size is zero, odd or too large")
    is_supported = k > 0 < r and min(power_of(k), power_of(r)) + max(k, r) <= 65536
    check(k == r == 0 or is_supported, "the numbers of blocks are not supported")
    for entry in description.entries:
        check(entry.size < 1 << 62, "a file is too long")
        check(b"\0" not in entry.name and not {b"", b".", b".."} & {*entry.name.split(b"/")}, "a name is not allowed")
    end = end_of(description)
    check(end < 1 << 62 and -(-end // b) == k, "the number of blocks does not fit the files")
    return description


def places_of(description):
    """Returns the place of the first byte of each entry in the data."""
    unit, end, places = 64 if description.version == 2 else description.b, 0, []
    for entry in description.entries:
        places.append(-(-end // unit) * unit if entry.size else end)
        end = places[-1] + entry.size
    return places


def end_of(description):
    """Returns the end of the last file in the data."""
    return max((place + entry.size for place, entry in zip(places_of(description), description.entries)), default=0)


# ---- Volumes of version 2

MAGIC, BLOCK, PART, PART_BYTES = bytes.fromhex("89525356320D0A1A"), 1, 2, 4096


def head_at(volume, at):
    """Returns the kind, index, number of bytes and set of the record at a place, or None if no valid head is there."""
    head = volume[at:at + 64]
    is_valid = len(head) == 64 and head[:8] == MAGIC and sha256(head[:56]).digest()[:8] == head[56:]
    return struct.unpack_from("<IIQ32s", head, 8) if is_valid else None


def records(volume):
    """Yields the kind, index, set and body of each record of a volume. A body can be cut or damaged."""
    at = volume.find(MAGIC)
    while at >= 0:
        head = head_at(volume, at)
        end = at + 64 + head[2] if head else 0
        if head:
            yield head[0], head[1], head[3], volume[at + 64:end]
        if end == len(volume):
            return
        at = end if head and head_at(volume, end) else volume.find(MAGIC, at + (64 if head else 1))


def second_descriptions(volume, found, done):
    """Yields each description of version 2 that is whole with this volume, and its set. `found` has the parts of the
    volumes before this one: parts of all copies are put together. `done` has the sets of the descriptions so far."""
    for kind, index, name, body in records(volume):
        size = int.from_bytes(body[32:40], "little")
        length = min(PART_BYTES, size - PART_BYTES * index)
        if kind == PART and len(body) == 40 + length > 40 and sha256(body[32:]).digest() == body[:32]:
            parts = found.setdefault((name, size), {})
            parts[index] = body[40:]
            if name not in done and len(parts) * PART_BYTES >= size:
                text = b"".join(parts[i] for i in sorted(parts))
                if sha256(text).digest() == name:
                    done.add(name)
                    yield read_second(text), name


# ---- Volumes of version 1

def copies(volume, size):
    """Yields the head and the description at the front of a volume of version 1, those at its end, and mixtures: where
    they differ in a few places, each place is taken from either of them."""
    front, back = volume[:64 + size], volume[-64:] + volume[-64 - size:-64]
    yield front
    yield back
    runs = []
    for i in (i for i in range(64 + size) if front[i] != back[i]):
        if not runs or i > runs[-1][1] + 16:
            runs.append([i, i])
        runs[-1][1] = i
    for choice in product((front, back), repeat=len(runs) if len(runs) <= 12 else 0):
        text = bytearray(front)
        for (start, end), side in zip(runs, choice):
            text[start:end + 1] = side[start:end + 1]
        yield bytes(text)


def first_records(volume, b, size):
    """Returns the index and the block of all records that fit into a volume of version 1."""
    starts = range(64 + size, len(volume) - 7 - b, 8 + b)
    return [(int.from_bytes(volume[at:at + 4], "little"), volume[at + 8:at + 8 + b]) for at in starts]


def first_description(volume):
    """Returns the description of a volume of version 1 and its length, or None. It has the digest in its head. If no
    digest is right, it is believed if both copies of it are equal."""
    sizes, believed = [int.from_bytes(volume[at:at + 8], "little") for at in (16, len(volume) - 48)], b""
    try:
        sizes.append(read_first(volume[64:])[1])
    except ValueError:
        pass
    for size in dict.fromkeys(size for size in sizes if size <= len(volume) - 128):
        for text in copies(volume, size):
            if sha256(text[64:]).digest() == text[32:64]:
                description, length = read_first(text[64:])
                check(length == size, "bytes follow the description")
                return description, size
        front, back = volume[64:64 + size], volume[-64 - size:-64]
        believed = front if front == back else believed
    try:
        description, length = read_first(believed)
    except ValueError:
        return None
    return (description, length) if length == len(believed) else None


# ---- Sets

def has_digest(description, index, block):
    """Says whether a block is the block with this index."""
    is_there = index < description.k + description.r and len(block) == description.b
    return is_there and sha256(block).digest() == description.digests[32 * index:32 * index + 32]


def descriptions(volumes):
    """Yields each whole description, in the order of the volumes and of their bytes, and its set, which is None for
    version 1."""
    found, done = {}, set()
    for volume in volumes:
        first = first_description(volume)
        if first:
            yield first[0], None
        else:
            yield from second_descriptions(volume, found, done)


def belongs(volume, description, name):
    """Says whether a volume belongs to a set. A file that is no volume counts as one that does."""
    first = first_description(volume)
    if first:
        return name is None and first[0] == description
    names = {of for _, _, of, _ in records(volume)}
    return name in names or not names


def set_of(volumes):
    """Returns the first whole description to which all volumes belong, and its set, which is None for version 1. If
    there is none, returns the first whole description: the other volumes are then of no use. A file of a set can
    itself be a volume, so a damaged volume can have the description of another set in front of its own."""
    first = None
    for found in descriptions(volumes):
        if all(belongs(volume, *found) for volume in volumes):
            return found
        first = first or found
    check(first, "there is no whole description")
    return first


def blocks_of(description, name, volumes):
    """Yields the index and the bytes of what can be blocks in volumes."""
    for volume in volumes:
        first = first_description(volume) if name is None else None
        if first and first[0] == description:
            yield from first_records(volume, description.b, first[1])
        if name is not None:
            yield from ((index, body) for kind, index, of, body in records(volume) if (kind, of) == (BLOCK, name))


def blocks_of_folder(description, folder):
    """Yields the index and the bytes of what can be original blocks, from the files in a folder. Missing bytes are
    zeros."""
    data, b = bytearray(description.b * description.k), description.b
    for entry, place in zip(description.entries, places_of(description)):
        path = os.path.join(folder, entry.name)
        if entry.kind == FILE and os.path.isfile(path):
            with open(path, "rb") as file:
                found = file.read(entry.size)
            data[place:place + len(found)] = found
    yield from ((i, bytes(data[i * b:i * b + b])) for i in range(description.k))


def gaps_of(description):
    """Returns for each original block the ranges of its bytes that are in no file, and so are zero in version 2."""
    gaps, end, b = {i: [] for i in range(description.k)}, 0, description.b
    places = [*zip(places_of(description), (entry.size for entry in description.entries)), (b * description.k, 0)]
    for place, size in places if description.version == 2 else ():
        for i in range(end // b, -(-place // b)):
            gaps[i].append((max(0, end - i * b), min(b, place - i * b)))
        end = place + size
    return gaps


def data_of(description, candidates):
    """Returns the data of a set, from what can be its blocks, and three sets of indexes: of blocks that are lost, and of restored blocks without
    their digest, or with other bytes than zeros where no file is."""
    k, found, gaps = description.k, {}, gaps_of(description)

    def has_zeros(index, block):
        return not any(any(block[start:end]) for start, end in gaps.get(index, ()))

    for index, block in candidates:
        if index not in found and has_zeros(index, block) and has_digest(description, index, block):
            found[index] = block
    missing = [i for i in range(k) if i not in found]
    if len(found) < k:
        found.update({i: bytes(description.b) for i in missing})
        return b"".join(found[i] for i in range(k)), {*missing}, set(), set()
    found.update(decode(k, description.r, found, missing) if missing else {})
    wrong = {i for i in missing if not has_digest(description, i, found[i])}
    return b"".join(found[i] for i in range(k)), set(), wrong, {i for i in missing if not has_zeros(i, found[i])}


def is_restored(entry, contents, blocks, wrong):
    """Returns whether a file is right. If there is a wrong block, the digest of the file decides. In version 1, a file has none."""
    return not wrong or (not blocks & wrong if entry.digest is None else sha256(contents).digest() == entry.digest)


def write_entry(new, entry, contents):
    """Writes a file, a symbolic link or an empty folder. Its time and its permission bits may be refused."""
    path = os.path.join(new, entry.name)
    os.makedirs(path if entry.kind == FOLDER else os.path.dirname(path), exist_ok=True)
    if entry.kind == LINK:
        os.symlink(entry.target, path)
    if entry.kind == FILE:
        with open(path, "xb") as file:
            file.write(contents)
        if entry.digest not in (None, sha256(contents).digest()):
            print(f"restore.py: {os.fsdecode(path)}: its blocks are right, but its digest is not", file=sys.stderr)
    try:
        if entry.kind != LINK:
            os.chmod(path, entry.mode & 0o777)
        time = entry.seconds * 10 ** 9 + entry.nanoseconds
        os.utime(path, ns=(time, time), follow_symlinks=False)
    except (OSError, OverflowError, NotImplementedError) as fault:
        print(f"restore.py: {os.fsdecode(path)}: {fault}", file=sys.stderr)


def restore(new, places):
    """Writes all entries of a set into the folder NEW, also if some of them cannot be written. Returns the faults."""
    volumes, folders, faults = [], [], []
    for place in places:
        if os.path.isdir(place):
            folders.append(place)
            continue
        with open(place, "rb") as file:
            volumes.append(file.read())
    description, name = set_of(volumes)
    sources = [blocks_of(description, name, volumes)]
    sources += [blocks_of_folder(description, os.fsencode(folder)) for folder in folders]
    data, lost, wrong, unpadded = data_of(description, (candidate for source in sources for candidate in source))
    os.mkdir(new)
    # Links come last, so no file is written through one of them.
    entries = sorted(zip(description.entries, places_of(description)), key=lambda pair: pair[0].kind == LINK)
    for entry, place in entries:
        try:
            blocks = {*range(place // description.b, -(-(place + entry.size) // description.b) if entry.size else 0)}
            contents = data[place:place + entry.size]
            check(not blocks & lost, f"{os.fsdecode(entry.name)}: {len(blocks & lost)} of its blocks are lost")
            is_right = entry.kind != FILE or is_restored(entry, contents, blocks, wrong)
            check(is_right and not blocks & unpadded, f"{os.fsdecode(entry.name)}: its restored bytes are not right")
            write_entry(os.fsencode(new), entry, contents)
        except (OSError, ValueError) as fault:
            faults.append(str(fault))
    return faults


def main():
    """Runs the command line."""
    if len(sys.argv) < 3:
        sys.exit(__doc__)
    try:
        faults = restore(sys.argv[1], sys.argv[2:])
    except (OSError, ValueError, MemoryError) as error:
        faults = [str(error) or "there is not enough memory"]
    sys.exit("\n".join(f"restore.py: {fault}" for fault in faults) or 0)


if __name__ == "__main__":
    main()
