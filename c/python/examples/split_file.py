"""Splits a file into k + r parts, any k of which give it back. Each part has a digest, so damaged parts are found and
left out.

    python3 split_file.py split FILE FOLDER K R
    python3 split_file.py join FOLDER FILE
"""
import hashlib
import struct
import sys
from pathlib import Path
from typing import Dict, List, NamedTuple, Optional, Tuple

import reed_solomon_simd as rs

# A part is a head, a shard, and the SHA-256 of both. The head: k, r, the length of the file, its SHA-256, and the index
# of the shard. Recovery shards have the indexes from k on.
MAGIC = b"rs part\0"
HEAD = struct.Struct("<8sIIQ32sI")


class Whole(NamedTuple):
    """What the heads of all parts of a file have in common."""

    magic: bytes
    originals: int
    recovery: int
    length: int
    digest: bytes


def split(file: Path, folder: Path, k: int, r: int) -> None:
    data = file.read_bytes()
    whole = Whole(MAGIC, k, r, len(data), hashlib.sha256(data).digest())
    size = rs.shard_bytes(len(data), k)
    # The last shards are filled with zeros.
    originals = [data[i * size:(i + 1) * size].ljust(size, b"\0") for i in range(k)]
    folder.mkdir(parents=True, exist_ok=True)
    for index, shard in enumerate(originals + rs.encode(originals, r)):
        content = HEAD.pack(*whole, index) + shard
        (folder / f"part{index:05}").write_bytes(content + hashlib.sha256(content).digest())


def read_part(path: Path) -> Optional[Tuple[Whole, int, bytes]]:
    """The content of a part, or None if it is damaged."""
    data = path.read_bytes()
    content, digest = data[:-32], data[-32:]
    if len(content) < HEAD.size or hashlib.sha256(content).digest() != digest:
        return None
    *whole, index = HEAD.unpack_from(content)
    return Whole(*whole), index, content[HEAD.size:]


def join(folder: Path, file: Path) -> List[str]:
    """Restores the file from the parts in the folder, and returns the names of damaged parts."""
    shards: Dict[int, bytes] = {}
    damaged, wholes = [], set()
    for path in sorted(folder.glob("part*")):
        part = read_part(path)
        if part is None:
            damaged.append(path.name)
        else:
            wholes.add(part[0])
            shards[part[1]] = part[2]
    if len(wholes) != 1:
        raise ValueError(f"the folder has sound parts of {len(wholes)} files")
    _, k, r, length, digest = wholes.pop()
    originals = {i: shard for i, shard in shards.items() if i < k}
    originals.update(rs.decode(k, r, originals, {i - k: shard for i, shard in shards.items() if i >= k}))
    data = b"".join(originals[i] for i in range(k))[:length]
    if hashlib.sha256(data).digest() != digest:
        raise ValueError("the restored file has another digest")
    file.write_bytes(data)
    return damaged


def main(words: List[str]) -> None:
    try:
        if words[:1] == ["split"] and len(words) == 5:
            split(Path(words[1]), Path(words[2]), int(words[3]), int(words[4]))
        elif words[:1] == ["join"] and len(words) == 3:
            for name in join(Path(words[1]), Path(words[2])):
                print(f"{name} is damaged")
        else:
            sys.exit(__doc__)
    except (OSError, ValueError) as error:
        sys.exit(f"split_file.py: {error}")


if __name__ == "__main__":
    main(sys.argv[1:])
