"""Tests of the package reed_solomon_simd over the C library: `python3 test_wrapper.py`. NumPy is tested if it is
installed.
"""
import array
import contextlib
import ctypes
import pickle
import random
import threading
import unittest

import reed_solomon_simd as rs
from reed_solomon_simd import _library

try:
    import numpy
except ImportError:
    numpy = None


def address(buffer):
    return ctypes.addressof(ctypes.c_char.from_buffer(buffer))


@contextlib.contextmanager
def replaced(**calls):
    """Replaces calls of the C library, each by what the function makes of it."""
    real = {name: getattr(_library.c, name) for name in calls}
    for name, of in calls.items():
        setattr(_library.c, name, of(real[name]))
    try:
        yield
    finally:
        for name, call in real.items():
            setattr(_library.c, name, call)


class Wrapper(unittest.TestCase):
    def round_of(self, k, r, size, kind=bytes):
        originals = [kind(random.randbytes(size)) for _ in range(k)]
        recovery = rs.encode(originals, r)
        self.assertEqual([len(shard) for shard in recovery], [size] * r)
        lost = random.sample(range(k), min(k, r))
        restored = rs.decode(k, r, {i: originals[i] for i in range(k) if i not in lost},
                             dict(enumerate(recovery[:len(lost)])))
        self.assertEqual({i: bytes(shard) for i, shard in restored.items()},
                         {i: bytes(originals[i]) for i in sorted(lost)})

    def test_rounds(self):
        for _ in range(200):
            self.round_of(random.randrange(1, 30), random.randrange(1, 30), 2 * random.randrange(1, 100))

    def test_kinds(self):
        for kind in (
            bytes, bytearray, memoryview, lambda data: memoryview(bytearray(data)), lambda data: array.array("H", data),
        ):
            self.round_of(5, 3, 64, lambda data: kind(data))

    def test_known_bytes(self):
        # Three originals of 64 bytes with two recovery shards: linear, so zeros give zeros, and equal originals of 1:n
        # give copies.
        self.assertEqual(rs.encode([bytes(64)] * 3, 2), [bytearray(64)] * 2)
        self.assertEqual(rs.encode([bytes(range(64))], 2), [bytearray(range(64))] * 2)

    def test_numpy(self):
        if numpy is None:
            self.skipTest("no NumPy")
        data = numpy.frombuffer(random.randbytes(10 * 256), dtype=numpy.uint16).reshape(10, 128)
        data.flags.writeable = False
        recovery = numpy.zeros((4, 128), dtype=numpy.uint16)
        before = recovery.ctypes.data
        rs.encode(list(data), 4, into=list(recovery))
        self.assertEqual(before, recovery.ctypes.data)
        self.assertEqual([row.tobytes() for row in recovery],
                         [bytes(shard) for shard in rs.encode([row.tobytes() for row in data], 4)])
        restored = numpy.zeros((2, 128), dtype=numpy.uint16)
        rs.decode(10, 4, {i: data[i] for i in range(2, 10)}, {0: recovery[0], 3: recovery[3]},
                  into={0: restored[0], 1: restored[1]})
        self.assertTrue((restored == data[:2]).all())
        with self.assertRaises((BufferError, ValueError)):
            rs.encode([data[:, i] for i in range(128)], 1)
        with self.assertRaises((BufferError, ValueError)):
            rs.encode([bytes(256)], 1, into=[data[0]])

    def test_received(self):
        """verify and reconstruct, over bytes and over NumPy arrays, into new buffers and into those of the caller."""
        for _ in range(100):
            k, r, size = random.randrange(1, 12), random.randrange(1, 12), 2 * random.randrange(1, 100)
            shards = [random.randbytes(size) for _ in range(k)]
            shards += [bytes(shard) for shard in rs.encode(shards, r)]
            order = random.sample(range(k + r), k + r)
            count = random.randrange(k, k + r + 1)
            given = {i: shards[i] for i in order[:count] if i < k}
            other = {i - k: memoryview(shards[i]) for i in order[:count] if i >= k}
            lost = [[i for i in order[count:] if i < k], [i - k for i in order[count:] if i >= k]]
            wanted = [shards[i] for i in lost[0]] + [shards[k + i] for i in lost[1]]
            rs.verify(k, r, given, other)
            index, after = random.randrange(k), random.randbytes(size)
            updated = [bytearray(shard) for shard in shards[k:]]
            rs.update(k, r, index, shards[index], after, updated)
            self.assertEqual(updated, rs.encode(shards[:index] + [after] + shards[index + 1:k], r))
            self.assertEqual(rs.reconstruct(k, r, given, other, *lost), wanted)
            rooms = [bytearray(size) for _ in wanted]
            made = rs.reconstruct(k, r, given, other, *lost, into=rooms)
            self.assertTrue(rooms == wanted and all(a is b for a, b in zip(made, rooms)))
            if count > k and given:
                i = next(iter(given))
                damaged = {**given, i: bytes(b ^ 255 for b in given[i])}
                for call in (
                    lambda: rs.verify(k, r, damaged, other), lambda: rs.reconstruct(k, r, damaged, other, *lost),
                ):
                    with self.assertRaisesRegex(rs.Error, "inconsistent"):
                        call()
        if numpy is not None:
            data = numpy.frombuffer(random.randbytes(3 * 64), dtype=numpy.uint16).reshape(3, 32)
            recovery = rs.encode(list(data), 2)
            room = numpy.zeros(32, dtype=numpy.uint16)
            rs.verify(3, 2, dict(enumerate(data)), {1: numpy.frombuffer(recovery[1], dtype=numpy.uint8)})
            rs.reconstruct(3, 2, {0: data[0], 2: data[2]}, {0: recovery[0]}, [1], [], into=[room])
            self.assertTrue((room == data[1]).all())
            rooms = [numpy.frombuffer(shard, dtype=numpy.uint16).copy() for shard in recovery]
            rs.update(3, 2, 0, data[0], data[1], rooms)
            self.assertEqual([shard.tobytes() for shard in rooms],
                             [bytes(shard) for shard in rs.encode([data[1], data[1], data[2]], 2)])

    def test_no_copies(self):
        """The library reads and writes the caller's memory: what it is passed has the addresses of the buffers."""
        originals, rooms = [bytearray(range(64)) for _ in range(3)], [bytearray(64), bytearray(64)]
        seen = []

        def spy(real):
            def call(tables, k, r, given, number, to, to_number, fault):
                for at, count in (given, number), (to, to_number):
                    seen.extend((ctypes.c_uint64 * (2 * count)).from_address(at)[::2])
                return real(tables, k, r, given, number, to, to_number, fault)
            return call

        with replaced(rs_encode_shards=spy):
            result = rs.encode(originals, 2, into=rooms)
        self.assertEqual(seen, [address(shard) for shard in originals + rooms])
        self.assertTrue(all(a is b for a, b in zip(result, rooms)))
        rooms[0].append(1)  # The buffers are released, so a bytearray can grow again.

    def test_rooms_by_index(self):
        """decode writes each original into the buffer of its index, in whatever order the buffers are passed."""
        originals = [random.randbytes(64) for _ in range(4)]
        recovery = dict(enumerate(rs.encode(originals, 3)))
        for order in [0, 2, 3], [3, 2, 0], [2, 0, 3]:
            rooms = {i: bytearray(64) for i in order}
            restored = rs.decode(4, 3, {1: originals[1]}, recovery, into=rooms)
            self.assertEqual(rooms, {i: bytearray(originals[i]) for i in order})
            self.assertTrue(all(restored[i] is rooms[i] for i in order))
        for indexes in [], [0, 2], [0, 2, 5], [0, 1, 3], [0, 1, 2, 3]:
            rooms = {i: bytearray(64) for i in indexes}
            with self.assertRaisesRegex(ValueError, "into must have a buffer for each missing original"):
                rs.decode(4, 3, {1: originals[1]}, recovery, into=rooms)
            self.assertTrue(not any(map(any, rooms.values())))

    def test_immutable_rooms(self):
        """No call writes into a buffer that is not writable."""
        one, two = bytes(range(64)), bytes(range(64, 128))
        first, second = map(bytes, rs.encode([one, two], 2))
        room = bytes(64)
        for call in (
            lambda: rs.encode([one, two], 2, into=[bytearray(64), room]),
            lambda: rs.decode(2, 2, {0: one}, {0: first}, into={1: room}),
            lambda: rs.reconstruct(2, 2, {0: one}, {0: first}, [1], [], into=[room]),
            lambda: rs.reconstruct(2, 2, {0: one}, {0: first}, [1], [], into=[memoryview(bytearray(64)).toreadonly()]),
            lambda: rs.update(2, 2, 0, one, two, [bytearray(first), second]),
        ):
            self.assertRaises(BufferError, call)
        self.assertEqual((room, first, second), (bytes(64), *map(bytes, rs.encode([one, two], 2))))

    def test_views_last(self):
        """The buffers stay in place while the C library works: a bytearray cannot grow before a call ends, and can
        afterwards.
        """
        one, two = bytearray(range(64)), bytearray(range(64, 128))
        first, second = rs.encode([one, two], 2)
        room, held = bytearray(64), []

        def spy(real):
            def call(*words):
                for buffer in held:
                    with self.assertRaises(BufferError):
                        buffer.append(1)
                return real(*words)
            return call

        with replaced(rs_encode_shards=spy, rs_decode_shards=spy, rs_verify=spy, rs_reconstruct=spy, rs_update=spy):
            for buffers, call in (
                ([one, two, first, second], lambda: rs.encode([one, two], 2, into=[first, second])),
                ([one, first, room], lambda: rs.decode(2, 2, {0: one}, {0: first}, into={1: room})),
                ([one, two, first], lambda: rs.verify(2, 2, {0: one, 1: two}, {0: first})),
                ([one, second, room], lambda: rs.reconstruct(2, 2, {0: one}, {1: second}, [1], [], into=[room])),
                ([one, two, first, second], lambda: rs.update(2, 2, 0, one, two, [first, second])),
            ):
                held = buffers
                call()
                for buffer in buffers:
                    buffer.append(1)
                    del buffer[-1]

    def test_apart(self):
        """No call writes to memory that overlaps other memory of the call. Shards that are only read may be the same.
        """
        one, two = bytearray(range(64)), bytearray(range(64, 128))
        first, second = rs.encode([one, two], 2)
        before = [bytes(shard) for shard in (one, two, first, second)]
        room = bytearray(128)
        near = memoryview(room)
        wrong = "a buffer that the call writes overlaps another buffer of the call"
        for call in (
            lambda: rs.encode([one, two], 2, into=[room[:64], one]),
            lambda: rs.encode([one, two], 2, into=[second, second]),
            lambda: rs.encode([one, two], 2, into=[near[:64], near[63:127]]),
            lambda: rs.encode([one, two], 2, into=[near[1:65], near[:64]]),
            lambda: rs.encode([near[64:], near[:64]], 2, into=[bytearray(64), near[32:96]]),
            lambda: rs.encode([near[64:], near[32:96], near[:64]], 1, into=[near[:1]]),
            lambda: rs.encode([near[:120], near[2:4]], 1, into=[near[100:102]]),
            lambda: rs.decode(2, 2, {0: one}, {0: first}, into={1: one}),
            lambda: rs.decode(2, 2, {0: one}, {0: first}, into={1: first}),
            lambda: rs.decode(2, 2, {}, {0: first, 1: second}, into={0: room, 1: room}),
            lambda: rs.reconstruct(2, 2, {0: one}, {0: first}, [1], [], into=[memoryview(first)[2:4]]),
            lambda: rs.update(2, 2, 0, one, two, [first, one]),
            lambda: rs.update(2, 2, 0, one, two, [two, second]),
            lambda: rs.update(2, 2, 0, one, two, [first, first]),
        ):
            with self.assertRaisesRegex(ValueError, wrong) as caught:
                call()
            self.assertNotIsInstance(caught.exception, rs.Error)
        self.assertEqual([*map(bytes, (one, two, first, second)), bytes(room)], before + [bytes(128)])
        rs.encode([one, one], 2, into=[near[:64], near[64:]])
        rs.update(2, 2, 0, one, one, [first, second])
        self.assertEqual([room[:64], room[64:], first], [*rs.encode([one, one], 2), before[2]])
        # Buffers of no bytes overlap nothing.
        with self.assertRaisesRegex(rs.Error, "wrong length"):
            rs.encode([one, two], 2, into=[near[:64], near[5:5]])

    def test_large_numbers(self):
        """No number is cut to 64 bits."""
        one, large = b"ab", 2**64
        for call, kind in (
            (lambda: rs.shard_bytes(large + 10, 1), ValueError), (lambda: rs.shard_bytes(10, large + 1), ValueError),
            (lambda: rs.shard_bytes(large - 1, 1), ValueError), (lambda: rs.encode([one], large + 1), ValueError),
            (lambda: rs.encode([one], 1, threads=large + 1), ValueError),
            (lambda: rs.encode([one], 1, threads=0), ValueError),
            (lambda: rs.decode(large + 1, 1, {}, {0: one}), ValueError),
            (lambda: rs.decode(1, large + 1, {}, {0: one}), ValueError),
            (lambda: rs.decode(1, 1, {large: one}, {}), IndexError),
            (lambda: rs.decode(1, 1, {}, {large: one}), IndexError),
            (lambda: rs.verify(large + 1, 1, {0: one}, {}), ValueError),
            (lambda: rs.verify(1, large + 1, {0: one}, {}), ValueError),
            (lambda: rs.verify(1, 1, {large: one}, {}), IndexError),
            (lambda: rs.verify(1, 1, {}, {large: one}), IndexError),
            (lambda: rs.reconstruct(1, 1, {large: one}, {}, [], [0]), IndexError),
            (lambda: rs.reconstruct(1, 1, {}, {large: one}, [0], []), IndexError),
            (lambda: rs.reconstruct(1, 1, {0: one}, {}, [], [large]), IndexError),
            (lambda: rs.reconstruct(1, 1, {}, {0: one}, [large], []), IndexError),
            (lambda: rs.reconstruct(large + 1, 1, {0: one}, {}, [], [0]), ValueError),
            (lambda: rs.reconstruct(1, large + 1, {0: one}, {}, [], [0]), ValueError),
            (lambda: rs.update(1, 1, large, one, one, [bytearray(2)]), IndexError),
            (lambda: rs.update(large + 1, 1, 0, one, one, [bytearray(2)]), ValueError),
            (lambda: rs.update(1, large + 1, 0, one, one, [bytearray(2)]), ValueError),
            (lambda: rs.update(1, 1, -1, one, one, [bytearray(2)]), IndexError),
            (lambda: rs.reconstruct(1, 1, {0: one}, {}, [], [-1]), IndexError),
            (lambda: rs.verify(1, 1, {0: one}, {-1: one}), IndexError),
        ):
            with self.assertRaises(kind) as caught:
                call()
            self.assertNotIsInstance(caught.exception, rs.Error)
        self.assertEqual((rs.shard_bytes(large - 2, 1), rs.supports(large, large)), (large - 2, False))

    def test_types(self):
        """Arguments of a wrong type are a TypeError that says what is wanted."""
        one = b"ab"
        sequence = ("originals must consist of shards with a contiguous buffer, such as bytes or bytearray, "
                    "and one of them is of type {}")
        mapping = "{} must be a mapping from index to shard, and not of type {}"
        for call, text in (
            (lambda: rs.encode(b"abcd", 2), sequence.format("int")),
            (lambda: rs.encode("ab", 2), sequence.format("str")),
            (lambda: rs.encode([one, None], 2), sequence.format("NoneType")),
            (lambda: rs.encode(array.array("H", [1, 2]), 2), sequence.format("int")),
            (lambda: rs.encode([one], 2, into=[2, 3]), sequence.replace("originals", "into").format("int")),
            (lambda: rs.decode(2, 1, [one], {}), mapping.format("originals", "list")),
            (lambda: rs.decode(2, 1, {}, one), mapping.format("recovery", "bytes")),
            (lambda: rs.decode(2, 1, {0: one}, {0: one}, into=[bytearray(2)]), mapping.format("into", "list")),
            (lambda: rs.verify(2, 1, (one,), {}), mapping.format("originals", "tuple")),
            (lambda: rs.verify(2, 1, {}, None), mapping.format("recovery", "NoneType")),
            (lambda: rs.reconstruct(1, 1, [one], {}, [], [0]), mapping.format("originals", "list")),
            (lambda: rs.reconstruct(1, 1, {}, [one], [0], []), mapping.format("recovery", "list")),
            (lambda: rs.decode(2, 1, {0: 5}, {}), sequence.format("int")),
            (lambda: rs.update(1, 1, 0, "ab", one, []),
             sequence.replace("originals", "before and after").format("str")),
            (lambda: rs.encode([one], 1.5), "'float' object cannot be interpreted as an integer"),
            (lambda: rs.encode([one], 1, threads="2"), "'str' object cannot be interpreted as an integer"),
            (lambda: rs.verify(1, 1, {"0": one}, {}), "'str' object cannot be interpreted as an integer"),
        ):
            with self.assertRaises(TypeError) as caught:
                call()
            self.assertEqual(str(caught.exception), text)

    def test_out_of_memory(self):
        """Memory that is not there is an Error and a MemoryError, for a call and for the tables. The next call makes
        the tables again.
        """
        def fails(_real):
            def call(*words):
                words[-1].number = _library.OUT_OF_MEMORY
            return call

        with replaced(rs_encode_shards=fails), self.assertRaises(rs.OutOfMemory) as caught:
            rs.encode([b"ab"], 1)
        self.assertIsInstance(caught.exception, MemoryError)
        self.assertIsInstance(caught.exception, rs.Error)
        self.assertEqual((caught.exception.name, str(caught.exception), caught.exception.values),
                         ("RS_OUT_OF_MEMORY", "out of memory", (0, 0, 0)))
        tables, _library._tables = _library._tables, None
        try:
            no_tables = replaced(rs_tables_make=lambda _real: lambda _at: _library.OUT_OF_MEMORY)
            with no_tables, self.assertRaises(rs.OutOfMemory):
                rs.verify(1, 1, {0: b"ab"}, {})
            self.assertIsNone(_library._tables)
            rs.verify(1, 1, {0: b"ab"}, {})
            self.assertIsNotNone(_library._tables)
        finally:
            _library._tables = tables

    def test_pickled(self):
        """An error can be passed to another process."""
        for error in rs.Error(13, (4, 6, 1)), rs.OutOfMemory(1):
            other = pickle.loads(pickle.dumps(error))
            self.assertEqual((type(other), str(other), other.name, other.values),
                             (type(error), str(error), error.name, error.values))

    def test_errors(self):
        for call, name, values in (
            (lambda: rs.encode([b"odd"], 1), "RS_INVALID_SHARD_SIZE", (3, 0, 0)),
            (lambda: rs.encode([], 1), "RS_UNSUPPORTED_SHARD_COUNT", (0, 1, 0)),
            (lambda: rs.encode([b"abcd", b"ab"], 1), "RS_DIFFERENT_SHARD_SIZE", (4, 2, 1)),
            (lambda: rs.encode([b"abcd"], 1, into=[bytearray(2)]), "RS_WRONG_LENGTH", (4, 2, 0)),
            (lambda: rs.encode([b"abcd"], 2, into=[bytearray(4), bytearray(6)]), "RS_WRONG_LENGTH", (4, 6, 1)),
            (lambda: rs.encode([b"abcd"], 2, into=[bytearray(4)]), "RS_WRONG_NUMBER_OF_ROOMS", (2, 1, 0)),
            (lambda: rs.encode([b"ab"], 1 << 40), "RS_UNSUPPORTED_SHARD_COUNT", (1, 1 << 40, 0)),
            (lambda: rs.decode(3, 2, {}, {}), "RS_NOT_ENOUGH_SHARDS", (3, 0, 0)),
            (lambda: rs.decode(1 << 60, 2, {}, {0: b"ab"}), "RS_UNSUPPORTED_SHARD_COUNT", (1 << 60, 2, 0)),
            (lambda: rs.decode(3, 2, {7: b"abcd"}, {0: b"abcd", 1: b"abcd"}), "RS_INVALID_ORIGINAL_SHARD_INDEX",
             (3, 7, 0)),
            (lambda: rs.decode(1, 1, {0: b"ab"}, {0: b"cd"}), "RS_INCONSISTENT_SHARDS", (1, 1, 0)),
            (lambda: rs.verify(3, 2, {}, {}), "RS_NOT_ENOUGH_SHARDS", (3, 0, 0)),
            (lambda: rs.verify(1, 1, {0: b"ab"}, {0: b"cd"}), "RS_INCONSISTENT_SHARDS", (1, 1, 0)),
            (lambda: rs.update(1, 1, 1, b"ab", b"cd", [bytearray(2)]), "RS_INVALID_ORIGINAL_SHARD_INDEX", (1, 1, 0)),
            (lambda: rs.update(1, 1, 0, b"ab", b"abcd", [bytearray(2)]), "RS_DIFFERENT_SHARD_SIZE", (2, 4, 1)),
            (lambda: rs.reconstruct(1, 1, {0: b"ab"}, {}, [0], []), "RS_WANTED_RECEIVED", (0, 0, 0)),
            (lambda: rs.reconstruct(1, 2, {0: b"ab"}, {}, [], [1, 1]), "RS_WANTED_TWICE", (1, 1, 0)),
            (lambda: rs.reconstruct(1, 2, {0: b"ab"}, {}, [], [2]), "RS_WANTED_INDEX_TOO_LARGE", (2, 2, 1)),
            (lambda: rs.reconstruct(1, 2, {0: b"ab"}, {}, [], [1], into=[]), "RS_WRONG_NUMBER_OF_ROOMS", (1, 0, 0)),
            (lambda: rs.reconstruct(1, 2, {0: b"ab"}, {}, [], [1], into=[bytearray(4)]), "RS_WRONG_LENGTH", (2, 4, 0)),
        ):
            with self.assertRaises(rs.Error) as caught:
                call()
            self.assertEqual((caught.exception.name, caught.exception.values), (name, values))
            self.assertTrue(str(caught.exception))
        with self.assertRaises(rs.Error) as caught:
            rs.encode([b"ab"], 1 << 40)
        self.assertEqual(str(caught.exception),
                         f"unsupported shard count: 1 original shards with {1 << 40} recovery shards")
        for call, kind in (
            (lambda: rs.encode([b"ab"], -1), ValueError), (lambda: rs.decode(-1, 1, {}, {}), ValueError),
            (lambda: rs.decode(3, 2, {-1: b"ab"}, {}), IndexError), (lambda: rs.encode(["text"], 1), TypeError),
            (lambda: rs.encode([b"ab"], 1, into=[b"ab"]), BufferError),
            (lambda: rs.decode(2, 1, {0: b"ab"}, {0: b"ab"}, into={}), ValueError),
            (lambda: rs.shard_bytes(-1, 1), ValueError), (lambda: rs.shard_bytes(5, 0), ValueError),
        ):
            self.assertRaises(kind, call)

    def test_nothing_lost(self):
        self.assertEqual(rs.decode(2, 1, {0: b"ab", 1: b"cd"}, {}), {})
        self.assertEqual(rs.decode(2, 1, {0: b"ab", 1: b"cd"}, dict(enumerate(rs.encode([b"ab", b"cd"], 1)))), {})

    def test_sizes(self):
        self.assertEqual([rs.shard_bytes(total, 3) for total in (0, 1, 6, 7, 35)], [2, 2, 2, 4, 12])
        self.assertEqual((rs.supports(10, 4), rs.supports(0, 4), rs.supports(-1, 4), rs.supports(1, 1 << 70)),
                         (True, False, False, False))
        self.assertEqual((rs.supports(1, 2**64 + 4), rs.supports(2**64 + 4, 1)), (False, False))
        self.assertEqual(rs.version()[0], 1)

    def test_threads(self):
        threads = [threading.Thread(target=lambda: [self.round_of(10, 4, 1024) for _ in range(50)]) for _ in range(4)]
        for thread in threads:
            thread.start()
        for thread in threads:
            thread.join()


if __name__ == "__main__":
    unittest.main()
