"""Tests of the keyword `threads` of the package reed_solomon_simd: `python3 test_threads.py`."""
import contextlib
import ctypes
import random
import threading
import unittest
from concurrent.futures import ThreadPoolExecutor
from unittest import mock

import reed_solomon_simd as rs
from reed_solomon_simd import _library, _pieces

SIZES = (2, 62, 64, 66, 130, 4094, 4096, 4098, 100000)


@contextlib.contextmanager
def watched(name, before=lambda: None):
    """The lengths that the first array of a call of the C library has in each call, with work memory or without.
    `before` runs before each call.
    """
    seen = []

    def watching(real):
        def call(*words):
            before()
            seen.append((ctypes.c_uint64 * 2).from_address(words[3])[:])
            return real(*words)
        return call

    with contextlib.ExitStack() as patches:
        for each in name, f"{name}_with_work":
            patches.enter_context(mock.patch.object(_library.c, each, watching(getattr(_library.c, each))))
        yield seen


class Threads(unittest.TestCase):
    def least(self, bytes_of_piece):
        patch = mock.patch.object(_pieces, "LEAST_PIECE", bytes_of_piece)
        patch.start()
        self.addCleanup(patch.stop)

    def message(self, k, r, size, missing):
        """The shards of a message, and those that are there, as mappings, and the indexes of the others."""
        shards = [random.randbytes(size) for _ in range(k)]
        shards += map(bytes, rs.encode(shards, r))
        lost = random.sample(range(k + r), missing)
        originals = {i: shards[i] for i in range(k) if i not in lost}
        recovery = {i - k: shards[i] for i in range(k, k + r) if i not in lost}
        return shards, originals, recovery, [i for i in lost if i < k], [i - k for i in lost if i >= k]

    def test_bytes(self):
        """Several threads write the same bytes as one."""
        self.least(2)
        for k, r in (1, 1), (3, 2), (2, 5), (10, 4), (20, 30):
            for size in SIZES:
                shards, originals, recovery, lost, lost_recovery = self.message(k, r, size, random.randrange(r + 1))
                wanted = [shards[i] for i in lost] + [shards[k + i] for i in lost_recovery]
                for threads in 1, 2, 3, 4, 7:
                    self.assertEqual(rs.encode(shards[:k], r, threads=threads), shards[k:])
                    rooms = [bytearray(size) for _ in range(r)]
                    rs.encode(shards[:k], r, into=rooms, threads=threads)
                    self.assertEqual(rooms, shards[k:])
                    restored = {i: shards[i] for i in lost}
                    self.assertEqual(rs.decode(k, r, originals, recovery, threads=threads), restored)
                    rooms = {i: bytearray(size) for i in lost}
                    rs.decode(k, r, originals, recovery, into=rooms, threads=threads)
                    self.assertEqual(rooms, restored)
                    self.assertEqual(rs.reconstruct(k, r, originals, recovery, lost, lost_recovery, threads=threads),
                                     wanted)
                    rooms = [bytearray(size) for _ in wanted]
                    rs.reconstruct(k, r, originals, recovery, lost, lost_recovery, into=rooms, threads=threads)
                    self.assertEqual(rooms, wanted)
                    rs.verify(k, r, originals, recovery, threads=threads)
                    rooms, after = [bytearray(shard) for shard in shards[k:]], random.randbytes(size)
                    rs.update(k, r, k - 1, shards[k - 1], after, rooms, threads=threads)
                    self.assertEqual(rooms, rs.encode([*shards[:k - 1], after], r))

    def test_pieces(self):
        """Long shards are cut at multiples of 64 bytes, into as many pieces as there may be threads, and others are not
        cut.
        """
        for size, threads, lengths in (
            (8190, 4, [8190]), (8192, 1, [8192]), (8193, 4, [8193]), (8192, 4, [4096] * 2), (8194, 2, [4160, 4034]),
            (12286, 4, [6144, 6142]),
            (100000, 4, [25024] * 3 + [24928]), (100000, 10**9, [4224] * 23 + [2848]),
        ):
            original = bytearray(size)
            with watched("rs_encode_shards") as seen, contextlib.suppress(rs.Error):
                rs.encode([original], 1, threads=threads)
            start = ctypes.addressof(ctypes.c_char.from_buffer(original))
            self.assertEqual(sorted(seen), [[start + sum(lengths[:i]), length] for i, length in enumerate(lengths)])

    def test_together(self):
        """The pieces are coded at the same time: each call waits for the others. Meanwhile no buffer can be resized."""
        shards = [bytearray(8192), bytearray(8192)]
        barrier = threading.Barrier(2, timeout=60)

        def wait():
            barrier.wait()
            for shard in shards:
                with self.assertRaises(BufferError):
                    shard.append(1)

        with watched("rs_encode_shards", wait) as seen:
            rs.encode(shards[:1], 1, into=shards[1:], threads=2)
        self.assertEqual(len(seen), 2)
        shards[0].append(1)

    def test_no_thread(self):
        """If the system starts no thread, or only one of them, the others do all the work."""
        shards = [random.randbytes(50000) for _ in range(3)]
        real = ThreadPoolExecutor.submit
        for started in 0, 1:
            left = [started]

            def submit(pool, work):
                if not left[0]:
                    raise RuntimeError("can't start new thread")
                left[0] -= 1
                return real(pool, work)

            with mock.patch.object(ThreadPoolExecutor, "submit", submit), watched("rs_encode_shards") as seen:
                recovery = rs.encode(shards, 2, threads=4)
            self.assertEqual((recovery, len(seen)), (rs.encode(shards, 2), 4))

    def test_late_damage(self):
        """Damage that only one piece has is found, and the buffers of the caller hold what they held before."""
        self.least(64)
        size = 1000
        shards, *_ = self.message(5, 4, size, 0)
        for at in 0, 300, 700, size - 1:
            damaged = bytearray(shards[1])
            damaged[at] ^= 1
            originals = {1: damaged, 3: shards[3], 4: shards[4]}
            recovery = {0: shards[5], 2: shards[7], 3: shards[8]}
            rooms = [bytearray(b"?" * size) for _ in range(3)]
            for threads in 1, 2, 4, 16:
                for call in (
                    lambda: rs.verify(5, 4, originals, recovery, threads=threads),
                    lambda: rs.decode(5, 4, originals, recovery, threads=threads),
                    lambda: rs.decode(5, 4, originals, recovery, into={0: rooms[0], 2: rooms[1]}, threads=threads),
                    lambda: rs.reconstruct(5, 4, originals, recovery, [0, 2], [1], threads=threads),
                    lambda: rs.reconstruct(5, 4, originals, recovery, [0, 2], [1], into=rooms, threads=threads),
                ):
                    with self.assertRaises(rs.Error) as caught:
                        call()
                    self.assertEqual((caught.exception.name, caught.exception.values),
                                     ("RS_INCONSISTENT_SHARDS", (3, 3, 0)))
            self.assertEqual(rooms, [b"?" * size] * 3)

    def test_errors(self):
        """A call fails in the same way with one thread and with several."""
        self.least(64)
        a, b, odd = bytes(1000), bytes(1002), bytes(999)

        def rooms(count, size=1000):
            return [bytearray(size) for _ in range(count)]

        for call in (
            lambda **n: rs.encode([], 1, **n), lambda **n: rs.encode([odd], 1, **n),
            lambda **n: rs.encode([a, b], 1, **n),
            lambda **n: rs.encode([a] * 3, 1 << 40, **n), lambda **n: rs.encode([a], 2, into=rooms(1), **n),
            lambda **n: rs.encode([a], 2, into=rooms(2, 1002), **n),
            lambda **n: rs.encode([a], 2, into=[*rooms(1), *rooms(1, 998)], **n),
            lambda **n: rs.encode([a], -1, **n), lambda **n: rs.encode(a, 1, **n),
            lambda **n: rs.encode([a], 1, into=[bytes(1000)], **n),
            lambda **n: rs.decode(3, 2, {}, {}, **n), lambda **n: rs.decode(3, 2, {0: a}, {1: a}, **n),
            lambda **n: rs.decode(3, 2, {7: a}, {0: a, 1: a}, **n),
            lambda **n: rs.decode(3, 2, {0: a, 1: b}, {0: a}, **n),
            lambda **n: rs.decode(3, 2, {0: a, 1: a}, {5: a}, **n),
            lambda **n: rs.decode(3, 2, {0: a, 1: a}, {0: a}, into={1: rooms(1)[0]}, **n),
            lambda **n: rs.decode(3, 2, {0: a, 1: a}, {0: a}, into={2: rooms(1, 998)[0]}, **n),
            lambda **n: rs.verify(3, 2, {0: a}, {0: a}, **n), lambda **n: rs.verify(3, 2, {0: a, 1: a}, {0: b}, **n),
            lambda **n: rs.verify(3, 2, {0: a, -1: a}, {0: a}, **n), lambda **n: rs.verify(0, 2, {0: a}, {0: a}, **n),
            lambda **n: rs.reconstruct(1, 2, {0: a}, {}, [0], [], **n),
            lambda **n: rs.reconstruct(1, 2, {0: a}, {}, [], [1, 1], **n),
            lambda **n: rs.reconstruct(1, 2, {0: a}, {}, [], [2], **n),
            lambda **n: rs.reconstruct(1, 2, {0: a}, {}, [], [1], into=[], **n),
            lambda **n: rs.reconstruct(1, 2, {0: a}, {}, [], [1], into=rooms(2), **n),
            lambda **n: rs.reconstruct(1, 2, {0: a}, {0: b}, [], [1], **n),
            lambda **n: rs.update(1, 1, 1, a, a, rooms(1), **n), lambda **n: rs.update(1, 1, 0, a, b, rooms(1), **n),
            lambda **n: rs.update(1, 2, 0, a, a, rooms(1), **n),
            lambda **n: rs.update(1, 1, 0, odd, odd, rooms(1, 999), **n),
            lambda **n: rs.update(1, 1, 0, a, a, rooms(1, 998), **n),
            lambda **n: rs.update(1, 1, 0, a, a, [bytes(1000)], **n),
        ):
            found = []
            for threads in 1, 4:
                with self.assertRaises(Exception) as caught:
                    call(threads=threads)
                found.append((type(caught.exception), str(caught.exception), getattr(caught.exception, "values", None)))
            self.assertEqual(*found)

    def test_out_of_memory(self):
        """All memory of a call is there before a piece begins. If it cannot be allocated, no buffer is written."""
        size = 50000
        shards, originals, recovery, lost, _ = self.message(3, 4, size, 0)
        del originals[0]
        rooms, before = [bytearray(b"?" * size) for _ in range(4)], b"?" * size
        real, few = ctypes.create_string_buffer, {0: recovery[0]}
        for call in (
            lambda: rs.encode(shards[:3], 4, into=rooms, threads=4),
            lambda: rs.decode(3, 4, originals, few, into={0: rooms[0]}, threads=4),
            lambda: rs.decode(3, 4, originals, recovery, into={0: rooms[0]}, threads=4),
            lambda: rs.reconstruct(3, 4, originals, few, [0], [1, 2, 3], into=rooms, threads=4),
            lambda: rs.verify(3, 4, originals, recovery, threads=4),
            lambda: rs.update(3, 4, 0, shards[1], shards[2], rooms, threads=4),
        ):
            for granted in range(4):
                left = [granted]

                def refusing(number):
                    if not left[0]:
                        raise MemoryError
                    left[0] -= 1
                    return real(number)

                with mock.patch.object(_pieces.ctypes, "create_string_buffer", refusing):
                    self.assertRaises(MemoryError, call)
                self.assertEqual(rooms, [before] * 4)


if __name__ == "__main__":
    unittest.main()
