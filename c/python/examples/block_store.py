"""Stores blocks on k + r disks, which are folders here. Up to r of the disks can fail.

A stripe is k blocks, each on a disk of its own, and r recovery blocks on the other disks. A file holds one block and
its SHA-256, so a damaged block counts as lost. `python3 block_store.py FOLDER` shows the calls.
"""
import contextlib
import hashlib
import os
import shutil
import sys
from pathlib import Path
from typing import Dict, Iterable, List, Sequence, Tuple

import reed_solomon_simd as rs


class BlockStore:
    """Blocks of `size` bytes on the disks. The first k disks hold the blocks, and the others the recovery blocks.

    A store for real data also needs a log: if the program ends in the middle of `update`, some files of the stripe are
    old and some are new.
    """

    def __init__(self, disks: Sequence[Path], k: int, size: int) -> None:
        self.disks, self.k, self.r, self.size = list(disks), k, len(disks) - k, size

    def put(self, stripe: int, blocks: Sequence[bytes]) -> None:
        """Stores k new blocks."""
        if [len(block) for block in blocks] != [self.size] * self.k:
            raise ValueError(f"a stripe has {self.k} blocks of {self.size} bytes")
        for disk, block in enumerate([*blocks, *rs.encode(blocks, self.r)]):
            self._write(stripe, disk, block)

    def get(self, stripe: int, i: int) -> bytes:
        """Returns block i, which is restored if its disk has failed."""
        found = self._read(stripe, [i])
        if not found:
            found[i] = bytes(rs.reconstruct(self.k, self.r, *self._received(stripe), [i], [])[0])
        return found[i]

    def update(self, stripe: int, i: int, block: bytes) -> None:
        """Changes block i. The call reads this block and the recovery blocks. It reads others only if one of these is
        lost.
        """
        disks = [i, *range(self.k, self.k + self.r)]
        found = self._read(stripe, disks)
        if len(found) < len(disks):
            self.repair(stripe)
            found = self._read(stripe, disks)
        recovery = [bytearray(found[disk]) for disk in disks[1:]]
        rs.update(self.k, self.r, i, found[i], block, recovery)
        for disk, changed in zip(disks, [block, *recovery]):
            self._write(stripe, disk, changed)

    def repair(self, stripe: int) -> List[int]:
        """Writes the blocks of the stripe that are lost or damaged again, and returns their disks."""
        blocks, recovery = self._received(stripe)
        names = [i for i in range(self.k) if i not in blocks], [i for i in range(self.r) if i not in recovery]
        lost = names[0] + [self.k + i for i in names[1]]
        for disk, block in zip(lost, rs.reconstruct(self.k, self.r, blocks, recovery, *names)):
            self._write(stripe, disk, block)
        return lost

    def _received(self, stripe: int) -> Tuple[Dict[int, bytes], Dict[int, bytes]]:
        """The blocks of a stripe and its recovery blocks, without those that are lost."""
        found = self._read(stripe, range(self.k + self.r))
        blocks = {disk: found[disk] for disk in found if disk < self.k}
        return blocks, {disk - self.k: found[disk] for disk in found if disk >= self.k}

    def _path(self, stripe: int, disk: int) -> Path:
        return self.disks[disk] / f"stripe{stripe:08}"

    def _read(self, stripe: int, disks: Iterable[int]) -> Dict[int, bytes]:
        """The blocks on these disks, without those that are lost or damaged."""
        found = {}
        for disk in disks:
            with contextlib.suppress(OSError):
                content = self._path(stripe, disk).read_bytes()
                if hashlib.sha256(content[:self.size]).digest() == content[self.size:]:
                    found[disk] = content[:self.size]
        return found

    def _write(self, stripe: int, disk: int, block: bytes) -> None:
        path = self._path(stripe, disk)
        path.parent.mkdir(parents=True, exist_ok=True)
        new = path.with_suffix(".new")
        new.write_bytes(block + hashlib.sha256(block).digest())
        os.replace(new, path)


def main(folder: Path) -> None:
    disks = [folder / f"disk{i}" for i in range(6)]
    store = BlockStore(disks, k=4, size=4096)
    blocks = [bytes([65 + i]) * 4096 for i in range(4)]
    store.put(0, blocks)
    shutil.rmtree(disks[1])
    print("disk 1 has failed, and its block begins with", store.get(0, 1)[:4])
    store.update(0, 2, b"x" * 4096)
    (disks[2] / "stripe00000000").write_bytes(b"damage")
    print("disks with lost blocks:", store.repair(0))
    print("the blocks begin with", [store.get(0, i)[:4] for i in range(4)])


if __name__ == "__main__":
    main(Path(sys.argv[1]))
