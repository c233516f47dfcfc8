"""Tests of the examples: `python3 test_examples.py`. docs/RECIPES.md shows what the examples print."""
import contextlib
import io
import itertools
import os
import random
import socket
import sys
import tempfile
import time
import unittest
from pathlib import Path

import reed_solomon_simd as rs

HERE = Path(__file__).resolve().parent
sys.path.insert(0, str(HERE.parent / "examples"))
import block_store
import datagrams
import split_file

RECIPES = HERE.parents[2] / "docs" / "RECIPES.md"


def printed(call, *words):
    with contextlib.redirect_stdout(io.StringIO()) as text:
        call(*words)
    return text.getvalue()


class Example(unittest.TestCase):
    def shown(self, text):
        """The page of the examples shows this output."""
        self.assertTrue(f"\n```\n{text}```\n" in RECIPES.read_text(), f"docs/RECIPES.md does not show:\n{text}")


class Folder(Example):
    def setUp(self):
        folder = tempfile.TemporaryDirectory()
        self.addCleanup(folder.cleanup)
        self.folder = Path(folder.name)


class Datagrams(Example):
    code = datagrams.Code(5, 3, 64)

    def packets(self, count):
        return [random.randbytes(random.randrange(1, 63)) for _ in range(count)]

    def sent(self, packets):
        """The datagrams of the packets, by block."""
        found = []
        sender = datagrams.Sender(self.code, found.append)
        for packet in packets:
            sender.packet(packet)
        sender.end()
        return [found[at:at + 8] for at in range(0, len(found), 8)]

    def receiver(self, **limits):
        self.delivered, self.reports = {}, []
        return datagrams.Receiver(self.code, self.delivered.__setitem__, self.reports.append, **limits)

    def test_any_five(self):
        """Any five of the eight datagrams of a block give back its packets, in any order, and not a datagram sooner."""
        packets = self.packets(5)
        block, = self.sent(packets)
        for chosen in itertools.combinations(block, 5):
            receiver = self.receiver()
            for place, datagram in enumerate(random.sample(chosen, 5)):
                self.assertEqual(self.delivered, {})
                receiver.datagram(datagram)
                # A datagram that comes again is not counted.
                receiver.datagram(datagram)
            self.assertEqual(self.delivered, {0: packets})
            for datagram in block:
                receiver.datagram(datagram)
            receiver.end()
            self.assertEqual((self.delivered, self.reports), ({0: packets}, []))

    def test_given_up(self):
        """A block is given up when two newer ones are complete. What comes later is dropped, and the packets that had
        come are delivered.
        """
        packets = self.packets(20)
        blocks = self.sent(packets)
        receiver = self.receiver()
        for datagram in [*blocks[0][:2], *blocks[0][5:7], *blocks[1], *blocks[3][:1]]:
            receiver.datagram(datagram)
        self.assertEqual((sorted(self.delivered), self.reports), ([1], []))
        for datagram in blocks[2]:
            receiver.datagram(datagram)
        self.assertEqual(self.reports, ["block 0 given up: 4 of 5 datagrams"])
        for datagram in blocks[0]:
            receiver.datagram(datagram)
        receiver.end()
        self.assertEqual(self.reports, ["block 0 given up: 4 of 5 datagrams", "block 3 given up: 1 of 5 datagrams"])
        self.assertEqual(self.delivered, {0: packets[:2], 1: packets[5:10], 2: packets[10:15], 3: packets[15:16]})

    def test_window(self):
        """A block is given up when one comes that is newer by the window, and blocks of which nothing came are named,
        too.
        """
        blocks = self.sent(self.packets(50))
        receiver = self.receiver(window=3)
        for datagram in blocks[0][:4] + blocks[4][:1] + blocks[0]:
            receiver.datagram(datagram)
        self.assertEqual(self.reports, ["block 0 given up: 4 of 5 datagrams", "block 1 given up: 0 of 5 datagrams"])
        for datagram in blocks[2]:
            receiver.datagram(datagram)
        receiver.end()
        self.assertEqual(self.reports[2:], ["block 3 given up: 0 of 5 datagrams", "block 4 given up: 1 of 5 datagrams"])

    def test_dropped(self):
        """What is no datagram of the code is dropped."""
        block, = self.sent(self.packets(5))
        receiver = self.receiver()
        wrong_index = datagrams.HEAD.pack(0, 8) + block[0][6:]
        for datagram in b"", block[0][:-1], block[0] + b"\0", wrong_index, random.randbytes(4):
            receiver.datagram(datagram)
        receiver.end()
        self.assertEqual((self.delivered, self.reports), ({}, []))
        with self.assertRaisesRegex(ValueError, "a packet of 63 bytes is too long"):
            datagrams.Sender(self.code, lambda _: None).packet(bytes(63))

    def test_line(self):
        """Over a real socket and a bad line: each packet of a block of which five datagrams arrive is delivered, and
        the other blocks are named.
        """
        for seed in range(10):
            random.seed(seed)
            packets, arrived = self.packets(200), {}
            receiver = self.receiver(patience=20)
            with socket.socket(socket.AF_INET,
                               socket.SOCK_DGRAM) as to, socket.socket(socket.AF_INET, socket.SOCK_DGRAM) as out:
                to.bind(("127.0.0.1", 0))
                out.connect(to.getsockname())

                def send(datagram):
                    arrived.setdefault(datagrams.HEAD.unpack_from(datagram)[0], set()).add(datagram)
                    out.send(datagram)
                    datagrams.receive(to, receiver, 0)

                line = datagrams.Line(send, seed)
                for block in self.sent(packets):
                    for datagram in block:
                        line(datagram)
                line.end()
                before = time.monotonic()
                datagrams.receive(to, receiver, 0.1)
                self.assertGreaterEqual(time.monotonic() - before, 0.1)
            receiver.end()
            whole = [number for number in range(40) if len(arrived.get(number, ())) >= 5]
            self.assertGreater(line.lost, 40)
            self.assertGreater(len(whole), 20)
            for number in whole:
                self.assertEqual(self.delivered[number], packets[5 * number:5 * number + 5])
            self.assertEqual(self.reports, [
                f"block {number} given up: {len(arrived.get(number, ()))} of 5 datagrams"
                for number in range(40) if number not in whole
            ])

    def test_shown(self):
        self.shown(printed(datagrams.main))


class SplitFile(Folder):
    def test_any_parts(self):
        """Any k parts restore the file, for lengths that k divides and others. Damaged parts are named and not used."""
        for length in 0, 1, 2, 3, 5, 6, 7, 1000, 4096, 10007:
            data = random.randbytes(length)
            (self.folder / "file").write_bytes(data)
            for chosen in itertools.combinations(range(5), 3):
                parts = self.folder / f"parts{length}-{'-'.join(map(str, chosen))}"
                split_file.split(self.folder / "file", parts, 3, 2)
                damaged, removed = [i for i in range(5) if i not in chosen]
                (parts / f"part{removed:05}").unlink()
                part = parts / f"part{damaged:05}"
                content = bytearray(part.read_bytes())
                content[random.randrange(len(content))] ^= 1 << random.randrange(8)
                part.write_bytes(content)
                self.assertEqual(split_file.join(parts, self.folder / "restored"), [part.name])
                self.assertEqual((self.folder / "restored").read_bytes(), data)

    def test_refusals(self):
        """Too few sound parts, or parts of two files, restore nothing."""
        (self.folder / "file").write_bytes(b"some data")
        (self.folder / "other").write_bytes(b"some datum")
        split_file.split(self.folder / "file", self.folder / "parts", 3, 2)
        for i in range(3):
            (self.folder / "parts" / f"part{i:05}").write_bytes(b"" if i else b"\0" * 200)
        with self.assertRaisesRegex(rs.Error, "not enough shards: 0 original \\+ 2 recovery < 3 original_count"):
            split_file.join(self.folder / "parts", self.folder / "restored")
        split_file.split(self.folder / "file", self.folder / "parts", 3, 2)
        split_file.split(self.folder / "other", self.folder / "parts", 2, 1)
        with self.assertRaisesRegex(ValueError, "the folder has sound parts of 2 files"):
            split_file.join(self.folder / "parts", self.folder / "restored")
        self.assertFalse((self.folder / "restored").exists())

    def test_words(self):
        (self.folder / "file").write_bytes(b"some data")
        parts = self.folder / "parts"
        self.assertEqual(printed(split_file.main, ["split", str(self.folder / "file"), str(parts), "3", "2"]), "")
        (parts / "part00001").write_bytes(b"damage")
        shown = printed(split_file.main, ["join", str(parts), str(self.folder / "restored")])
        self.shown(shown)
        self.assertEqual((self.folder / "restored").read_bytes(), b"some data")
        for words in [], ["split"], ["join",
                                     str(parts)], ["join", str(self.folder / "nowhere"),
                                                   "x"], ["split", "nowhere", str(parts), "3", "2"]:
            with self.assertRaises(SystemExit) as caught:
                split_file.main(words)
            self.assertTrue(str(caught.exception))


class Store(Folder):
    def store(self):
        return block_store.BlockStore([self.folder / f"disk{i}" for i in range(5)], 3, 128)

    def damage(self, disks):
        """Loses or damages the block of stripe 4 on each of these disks."""
        for disk in disks:
            path = self.folder / f"disk{disk}" / "stripe00000004"
            content = path.read_bytes()
            if random.randrange(2):
                path.unlink()
            else:
                path.write_bytes(random.choice([
                    b"", content[:-1], content[:20] + b"!!!" + content[23:], content + b"\0",
                    content[32:] + content[:32],
                ]))

    def test_any_disks(self):
        """Blocks can be read, changed and repaired while any two disks have lost them. An update writes what a new
        `put` would write.
        """
        for lost in itertools.combinations(range(5), 2):
            store, blocks = self.store(), [random.randbytes(128) for _ in range(3)]
            store.put(4, blocks)
            store.put(5, blocks)
            self.damage(lost)
            self.assertEqual([store.get(4, i) for i in range(3)], blocks)
            self.assertEqual((store.repair(4), store.repair(4)), (list(lost), []))
            for i in range(3):
                blocks[i] = random.randbytes(128)
                self.damage(lost[:i])
                store.update(4, i, blocks[i])
                # The block of an original may still be lost.
                store.repair(4)
            before = [(disk / "stripe00000004").read_bytes() for disk in store.disks]
            store.put(4, blocks)
            self.assertEqual([(disk / "stripe00000004").read_bytes() for disk in store.disks], before)
            self.assertEqual({len(os.listdir(disk)) for disk in store.disks}, {2})

    def test_reads(self):
        """An update reads one block and the recovery blocks."""
        store = self.store()
        store.put(4, [bytes(128)] * 3)
        (store.disks[0] / "stripe00000004").unlink()
        store.update(4, 1, b"x" * 128)
        self.assertEqual(store.repair(4), [0])

    def test_refusals(self):
        store = self.store()
        store.put(4, [bytes(128)] * 3)
        for blocks in [bytes(128)] * 2, [bytes(128)] * 4, [bytes(128), bytes(126), bytes(128)]:
            with self.assertRaisesRegex(ValueError, "a stripe has 3 blocks of 128 bytes"):
                store.put(4, blocks)
        with self.assertRaisesRegex(rs.Error, "different shard size"):
            store.update(4, 0, bytes(126))
        self.damage([0, 1, 4])
        for call in (
            lambda: store.get(4, 0), lambda: store.repair(4), lambda: store.update(4, 2, bytes(128)),
            lambda: store.get(7, 0),
        ):
            with self.assertRaisesRegex(rs.Error, "not enough shards"):
                call()
        self.assertEqual(store.get(4, 2), bytes(128))

    def test_shown(self):
        self.shown(printed(block_store.main, self.folder))


if __name__ == "__main__":
    unittest.main()
