"""Sends packets by UDP, with recovery datagrams that replace lost ones.

A block is k packets. Each of them is sent at once, in a datagram of its own. After the last one, r recovery datagrams
follow. Any k of the k + r datagrams of a block give back all its packets.

`python3 datagrams.py` sends itself packets by a line that loses, repeats and delays datagrams.
"""
import heapq
import random
import socket
import struct
from typing import Callable, Dict, List, NamedTuple, Set, Tuple

import reed_solomon_simd as rs

# A datagram is the number of its block, the index of its shard, and the shard. Recovery shards have the indexes from k
# on.
HEAD = struct.Struct("!IH")
# A shard is the length of its packet, the packet, and zeros.
LENGTH = struct.Struct("!H")


class Code(NamedTuple):
    """What the sender and the receiver agree on: k, r, and the size of the shards."""

    originals: int = 10
    recovery: int = 4
    size: int = 1024


class Sender:
    """Sends packets of at least one byte and at most size - 2 bytes."""

    def __init__(self, code: Code, send: Callable[[bytes], object]) -> None:
        self.code, self.send = code, send
        self.block = 0
        self.shards: List[bytes] = []

    def packet(self, packet: bytes) -> None:
        shard = LENGTH.pack(len(packet)) + packet
        if len(shard) > self.code.size:
            raise ValueError(f"a packet of {len(packet)} bytes is too long")
        self.shards.append(shard.ljust(self.code.size, b"\0"))
        self._send(len(self.shards) - 1, self.shards[-1])
        if len(self.shards) == self.code.originals:
            for index, recovery in enumerate(rs.encode(self.shards, self.code.recovery), self.code.originals):
                self._send(index, recovery)
            self.block, self.shards = self.block + 1, []

    def end(self) -> None:
        """Fills the last block with empty packets."""
        while self.shards:
            self.packet(b"")

    def _send(self, index: int, shard: bytes) -> None:
        self.send(HEAD.pack(self.block, index) + shard)


class Receiver:
    """Restores the packets of blocks. It gives up a block when `patience` newer ones are complete, or when one comes
    that is newer by `window`.

    `deliver` gets the number of a block and its packets. If the block was given up, these are the packets that have
    come. `report` gets a line for each block that is given up.
    """

    def __init__(self, code: Code, deliver: Callable[[int, List[bytes]], object], report: Callable[[str], object],
                 patience: int = 2, window: int = 64) -> None:
        self.code, self.deliver, self.report = code, deliver, report
        self.patience, self.window = patience, window
        # All blocks before the first one have ended.
        self.first = 0
        self.shards: Dict[int, Dict[int, bytes]] = {}
        self.complete: Set[int] = set()

    def datagram(self, datagram: bytes) -> None:
        """Takes a datagram. It is dropped if it does not fit the code, if it has come before, or if its block is
        complete or was given up.
        """
        if len(datagram) != HEAD.size + self.code.size:
            return
        block, index = HEAD.unpack_from(datagram)
        if index >= self.code.originals + self.code.recovery or block < self.first or block in self.complete:
            return
        while block >= self.first + self.window:
            self._end_first()
        shards = self.shards.setdefault(block, {})
        shards.setdefault(index, datagram[HEAD.size:])
        if len(shards) == self.code.originals:
            self._restore(block)

    def end(self) -> None:
        """Gives up all blocks that are not complete."""
        while self.shards or self.complete:
            self._end_first()

    def _restore(self, block: int) -> None:
        k, r, _ = self.code
        shards = self.shards.pop(block)
        originals = {i: shard for i, shard in shards.items() if i < k}
        recovery = {i - k: shard for i, shard in shards.items() if i >= k}
        self._deliver(block, {**originals, **rs.decode(k, r, originals, recovery)})
        self.complete.add(block)
        while self.first in self.complete or len(self.complete) >= self.patience:
            self._end_first()

    def _end_first(self) -> None:
        if self.first in self.complete:
            self.complete.remove(self.first)
        else:
            shards = self.shards.pop(self.first, {})
            self.report(f"block {self.first} given up: {len(shards)} of {self.code.originals} datagrams")
            self._deliver(self.first, {i: shard for i, shard in shards.items() if i < self.code.originals})
        self.first += 1

    def _deliver(self, block: int, originals: Dict[int, bytes]) -> None:
        packets = [packet_of(originals[i]) for i in sorted(originals)]
        self.deliver(block, [packet for packet in packets if packet])


def packet_of(shard: bytes) -> bytes:
    length, = LENGTH.unpack_from(shard)
    return bytes(shard[LENGTH.size:LENGTH.size + length])


def receive(to: socket.socket, receiver: Receiver, wait: float) -> None:
    """Takes datagrams until none has come for `wait` seconds."""
    to.settimeout(wait)
    try:
        while True:
            receiver.datagram(to.recv(65536))
    except (socket.timeout, BlockingIOError):
        return


class Line:
    """A line that loses some datagrams, repeats some, and delays them, some of them for long. `seed` says which."""

    def __init__(self, send: Callable[[bytes], object], seed: int) -> None:
        self.send, self.random = send, random.Random(seed).random
        self.time = self.lost = 0
        self.waiting: List[Tuple[float, float, bytes]] = []

    def __call__(self, datagram: bytes) -> None:
        self.time += 1
        luck = self.random()
        self.lost += luck < 0.15
        for _ in range(0 if luck < 0.15 else 1 if luck < 0.95 else 2):
            delay = 4 * self.random() if self.random() < 0.98 else 60
            heapq.heappush(self.waiting, (self.time + delay, self.random(), datagram))
        self._arrive(self.time)

    def end(self) -> None:
        self._arrive(self.time + 100)

    def _arrive(self, time: float) -> None:
        while self.waiting and self.waiting[0][0] <= time:
            self.send(heapq.heappop(self.waiting)[-1])


def main() -> None:
    packets: Set[bytes] = set()
    receiver = Receiver(Code(), lambda _, block: packets.update(block), print)
    with socket.socket(socket.AF_INET,
                       socket.SOCK_DGRAM) as to, socket.socket(socket.AF_INET, socket.SOCK_DGRAM) as out:
        to.bind(("127.0.0.1", 0))
        out.connect(to.getsockname())

        def send(datagram: bytes) -> None:
            out.send(datagram)
            # The system keeps few datagrams, so this program takes each one at once.
            receive(to, receiver, 0)

        line = Line(send, seed=1)
        sender = Sender(Code(), line)
        for i in range(500):
            sender.packet(b"packet %d" % i)
        sender.end()
        line.end()
        receive(to, receiver, 0.2)
    receiver.end()
    print(f"{line.time} datagrams sent, {line.lost} lost, {len(packets)} of 500 packets received")


if __name__ == "__main__":
    main()
