"""Reed-Solomon erasure codes over GF(2^16).

`encode` turns k originals of one even size into recovery shards. `decode` takes any k of all these shards, and returns
the missing originals. `reconstruct` returns the lost shards that you name, including recovery shards. `verify` checks
whether shards belong to one message. `update` updates the recovery shards if one original changes.

Shards are objects with a contiguous buffer: bytes, bytearray, memoryview, array.array or a NumPy array. They are read
where they are, and no call copies them. Results are new bytearrays, or are written into buffers that the caller passes
as `into`. These buffers must not overlap each other, nor the shards that the call reads. While a call runs, no other
thread may write to the shards or use the results.

The calls release the GIL, and threads can use them at the same time. One call can use several threads, too: with
`threads=4`, it cuts long shards into up to four pieces of at least 4096 bytes, and codes them side by side. This
changes neither the results nor the errors. The first call makes the tables of the code, which takes 9 to 30 ms and 8.8
MB of memory.

Numbers below 0, and those of 2^64 and more, are refused with ValueError, or with IndexError if they are indexes. All
other faults are an `Error`. If the library cannot allocate memory, it is an `OutOfMemory`, which is both an `Error` and
a MemoryError. A call that fails leaves the buffers as they were.
"""
from typing import Dict, List, Mapping, Optional, Sequence, Tuple

from ._buffers import WRITABLE, Buffer, Views, by_index, check_apart, index as _index, number
from ._library import Error, OutOfMemory, c
from ._pieces import Entries, Names, Task, run

__all__ = ["Error", "OutOfMemory", "decode", "encode", "reconstruct", "shard_bytes", "supports", "update", "verify",
           "version"]


def supports(original_count: int, recovery_count: int) -> bool:
    """Whether the library supports these counts."""
    return 0 < min(original_count, recovery_count) <= max(original_count, recovery_count) < 65536 and bool(
        c.rs_supports(original_count, recovery_count))


def shard_bytes(total: int, original_count: int) -> int:
    """The least even size of shards, and at least 2, with which original_count shards hold total bytes."""
    size = int(c.rs_shard_bytes(number("total", total), number("original_count", original_count)))
    if size == 0:
        raise ValueError(f"no size of {original_count} shards is enough for {total} bytes")
    return size


def version() -> Tuple[int, int]:
    """The version of the C library."""
    whole = int(c.rs_version())
    return whole // 65536, whole % 65536


def _counts(original_count: int, recovery_count: int) -> Tuple[int, int]:
    return number("original_count", original_count), number("recovery_count", recovery_count)


def _threads(threads: int) -> int:
    count = number("threads", threads)
    if count == 0:
        raise ValueError("threads must be at least 1")
    return count


def _received(views: Views, name: str, shards: Mapping[int, Buffer]) -> Entries:
    items = by_index(name, shards)
    return Entries(views.parts(name, items.values()), [(_index(i),) for i in items])


def _rooms(views: Views, name: str, buffers: Sequence[Buffer], read: Sequence[Entries], new: bool = False) -> Entries:
    """The memory that a call writes. New buffers overlap nothing."""
    rooms = Entries(views.parts(name, buffers, WRITABLE))
    if not new:
        check_apart(rooms.parts, [part for entries in read for part in entries.parts])
    return rooms


def encode(originals: Sequence[Buffer], recovery_count: int, into: Optional[Sequence[Buffer]] = None, *,
           threads: int = 1) -> List[Buffer]:
    """Returns the recovery shards of the originals, in order of index.

    All originals have the same even number of bytes. If `into` is given, it has one writable buffer for each recovery
    shard. The call writes into these buffers and returns them.
    """
    count, threads = number("recovery_count", recovery_count), _threads(threads)
    with Views() as views:
        given = Entries(views.parts("originals", originals))
        if into is None:
            results = [bytearray(given.parts[0][1]) for _ in range(count if supports(len(given), count) else 0)]
        else:
            results = list(into)
        rooms = _rooms(views, "into", results, [given], into is None)
        counts = len(given), count
        run(Task("rs_encode_shards", [*counts, given, rooms], lambda size: c.rs_work_bytes(*counts, size, 0)), threads)
    return results


def decode(original_count: int, recovery_count: int, originals: Mapping[int, Buffer], recovery: Mapping[int, Buffer],
           into: Optional[Mapping[int, Buffer]] = None, *, threads: int = 1) -> Dict[int, Buffer]:
    """Returns the missing originals by their index.

    `originals` and `recovery` are the shards that are there, by their index. Recovery shards have indexes of their own,
    which begin at 0. If `into` is given, it has one writable buffer for the index of each missing original. The call
    writes into these buffers and returns them. With several threads, `into` and more than original_count shards, the
    call takes memory for the missing originals.
    """
    counts, threads = _counts(original_count, recovery_count), _threads(threads)
    with Views() as views:
        given, other = _received(views, "originals", originals), _received(views, "recovery", recovery)
        received = len(given) + len(other)
        missing = [i for i in range(counts[0] if supports(*counts) else 0) if i not in originals]
        if into is None:
            size = other.parts[0][1] if len(other) and received >= counts[0] else 0
            results = {i: bytearray(size) for i in (missing if size else ())}
        elif sorted(by_index("into", into)) == missing:
            results = dict(into)
        else:
            raise ValueError(f"into must have a buffer for each missing original: {missing[:10]}")
        rooms = _rooms(views, "into", [results[i] for i in sorted(results)], [given, other], into is None)
        late = into is not None and received > counts[0]
        checked = len(rooms) if received > counts[0] else 0
        run(Task("rs_decode_shards", [*counts, given, other, rooms],
                 lambda size: c.rs_work_bytes(*counts, size, checked)), threads, rooms, late)
    return results


def verify(original_count: int, recovery_count: int, originals: Mapping[int, Buffer], recovery: Mapping[int, Buffer], *,
           threads: int = 1) -> None:
    """Checks that shards belong to one message, and raises Error with the name RS_INCONSISTENT_SHARDS if they do not.

    `originals` and `recovery` are the shards that are there, by their index. With exactly original_count shards, no
    damage can be noticed.
    """
    counts, threads = _counts(original_count, recovery_count), _threads(threads)
    with Views() as views:
        given, other = _received(views, "originals", originals), _received(views, "recovery", recovery)
        run(Task("rs_verify", [*counts, given, other], lambda size: c.rs_verify_work_bytes(*counts, size)), threads)


def reconstruct(original_count: int, recovery_count: int, originals: Mapping[int, Buffer],
                recovery: Mapping[int, Buffer],
                wanted_originals: Sequence[int], wanted_recovery: Sequence[int],
                into: Optional[Sequence[Buffer]] = None, *,
                threads: int = 1) -> List[Buffer]:
    """Returns a list of the wanted shards: first the originals with the indexes wanted_originals, then the recovery
    shards with the indexes wanted_recovery.

    `originals` and `recovery` are the shards that are there, by their index. A shard that is there cannot be wanted. If
    `into` is given, it has one writable buffer for each wanted shard. The call writes into these buffers and returns
    them. With several threads, `into` and more than original_count shards, the call takes memory for the wanted shards.
    """
    counts, threads = _counts(original_count, recovery_count), _threads(threads)
    names = Names([*((0, _index(i)) for i in wanted_originals), *((1, _index(i)) for i in wanted_recovery)])
    with Views() as views:
        given, other = _received(views, "originals", originals), _received(views, "recovery", recovery)
        received = [*other.parts, *given.parts]
        if into is None:
            possible = supports(*counts) and len(received) >= counts[0] and len(names) <= sum(counts)
            results = [bytearray(received[0][1]) for _ in (names if possible else ())]
        else:
            results = list(into)
        rooms = _rooms(views, "into", results, [given, other], into is None)
        late = into is not None and len(received) > counts[0]
        checked = len(rooms) if len(received) > counts[0] else 0
        run(Task("rs_reconstruct", [*counts, given, other, names, rooms],
                 lambda size: c.rs_reconstruct_work_bytes(*counts, size, checked)), threads, rooms, late)
    return results


def update(original_count: int, recovery_count: int, index: int, before: Buffer, after: Buffer,
           recovery: Sequence[Buffer], *,
           threads: int = 1) -> None:
    """Updates the recovery shards in writable buffers after the original with this index has changed from `before` to
    `after`.

    `recovery` has all recovery shards, in order of index. The other originals are not needed.
    """
    counts, threads = _counts(original_count, recovery_count), _threads(threads)
    with Views() as views:
        old, new = views.parts("before and after", [before, after])
        rooms = _rooms(views, "recovery", recovery, [Entries([old, new])])
        run(Task("rs_update", [*counts, _index(index), old, new, rooms],
                 lambda _size: c.rs_update_work_bytes(*counts)), threads)
