"""Calls of the C library over all bytes of the shards, or over pieces of them in several threads."""
import contextlib
import ctypes
import itertools
import queue
from array import array
from concurrent.futures import ThreadPoolExecutor
from typing import Any, Callable, Iterator, List, Optional, Sequence, Tuple, Union

from ._buffers import WRITABLE, Part, Views
from ._library import OUT_OF_MEMORY, Fault, OutOfMemory, c, check, made_tables

# No piece is shorter, but perhaps the last one. An encode works on so many bytes of every shard at a time.
LEAST_PIECE = 4096
# Pieces that begin at multiples of this number of bytes are messages of their own.
CHUNK = 64


# A piece is its first byte and its end, in every shard. None is a piece, too: the whole shards, of whatever lengths.
Piece = Optional[Tuple[int, int]]


def _cut(parts: Sequence[Part], piece: Piece) -> Sequence[Part]:
    if piece is None:
        return parts
    start, end = piece
    return [(address + start, end - start) for address, _ in parts]


class Entries:
    """An array of the C library. Each entry is some words, such as an index, and then the address and the length of a
    part of memory.
    """

    def __init__(self, parts: Sequence[Part], words: Sequence[Tuple[int, ...]] = ()) -> None:
        self.parts, self.words = parts, words

    def __len__(self) -> int:
        return len(self.parts)

    def cut(self, piece: Piece) -> "array[int]":
        """The array in memory, with a piece of each part."""
        parts = _cut(self.parts, piece)
        entries = [(*words, *part) for words, part in zip(self.words, parts)] if self.words else parts
        return array("Q", list(itertools.chain.from_iterable(entries)))


class Names(List[Tuple[int, int]]):
    """An array of struct rs_wanted, which is the same for each piece."""

    def cut(self, _piece: Piece) -> "array[int]":
        return array("Q", [word for pair in self for word in pair])


Argument = Union[int, Part, Entries, Names]


class Task:
    """A call of the C library. `work_bytes` returns how much work memory a call over shards of a size needs."""

    def __init__(self, name: str, arguments: Sequence[Argument], work_bytes: Callable[[int], int]) -> None:
        self.name, self.arguments, self.work_bytes = name, arguments, work_bytes


class _Call:
    """A call of the C library over one piece, with everything that it needs, so that making it takes no memory of
    Python. A call over a part of the shards also has all memory that the C library takes.
    """

    def __init__(self, task: Task, piece: Piece) -> None:
        # A call that was not made is one that failed.
        self.fault = Fault(OUT_OF_MEMORY)
        self.arrays: List["array[int]"] = []
        self.words: List[Any] = [made_tables()]
        for argument in task.arguments:
            self.words.extend(self._words(argument, piece))
        self.function = getattr(c, task.name if piece is None else f"{task.name}_with_work")
        if piece is not None:
            self.work = _memory(task.work_bytes(piece[1] - piece[0]))
            self.words.extend((self.work, len(self.work)))

    def _words(self, argument: Argument, piece: Piece) -> Tuple[int, ...]:
        if isinstance(argument, int):
            return (argument,)
        if isinstance(argument, tuple):
            return _cut([argument], piece)[0]
        self.arrays.append(argument.cut(piece))
        return self.arrays[-1].buffer_info()[0], len(argument)

    def __call__(self) -> None:
        self.function(*self.words, self.fault)


def _memory(size: int) -> "ctypes.Array[ctypes.c_char]":
    try:
        return ctypes.create_string_buffer(size)
    except MemoryError:
        raise OutOfMemory(OUT_OF_MEMORY) from None


def _parts(arguments: Sequence[Argument]) -> Iterator[Part]:
    for argument in arguments:
        if isinstance(argument, tuple):
            yield argument
        elif isinstance(argument, Entries):
            yield from argument.parts


def _cuts(arguments: Sequence[Argument], threads: int) -> Sequence[Piece]:
    """The pieces. Shards that differ in size, or whose size is odd, are not cut: the
    call refuses them.
    """
    sizes = {length for _, length in _parts(arguments)} if threads > 1 else ()
    size = max(sizes) if len(sizes) == 1 else 0
    count = min(threads, size // LEAST_PIECE)
    if count < 2 or size % 2:
        return [None]
    step = -(-size // (count * CHUNK)) * CHUNK
    return [(start, min(start + step, size)) for start in range(0, size, step)]


def _together(calls: Sequence[_Call]) -> None:
    """Makes the calls, each in a thread of its own. If the system starts fewer threads, those that run make all."""
    left: "queue.SimpleQueue[_Call]" = queue.SimpleQueue()
    for call in calls:
        left.put(call)

    def work() -> None:
        with contextlib.suppress(queue.Empty):
            while True:
                left.get_nowait()()

    with ThreadPoolExecutor(len(calls) - 1) as pool:
        with contextlib.suppress(RuntimeError):
            for _ in calls[1:]:
                pool.submit(work)
        work()


def _made(task: Task, cuts: Sequence[Piece]) -> None:
    """Makes the call for each piece, and raises the first fault in the order of the pieces.

    All pieces have the same faults but for damage: their memory is there before the first of them begins.
    """
    calls = [_Call(task, cut) for cut in cuts]
    if len(calls) > 1:
        _together(calls)
    else:
        calls[0]()
    for call in calls:
        check(call.fault)


def run(task: Task, threads: int, rooms: Entries = Entries(()), late: bool = False) -> None:
    """Makes a call of the C library, with up to `threads` threads.

    `late` says that a piece can fail after others have succeeded, because more shards were received than are needed. A
    call that fails must leave the rooms as they were. So the pieces are then written to other memory first.
    """
    cuts = _cuts(task.arguments, threads)
    if not late or len(cuts) < 2:
        return _made(task, cuts)
    with Views() as views:
        others = Entries(views.parts("", [bytearray(length) for _, length in rooms.parts], WRITABLE))
        elsewhere = [others if argument is rooms else argument for argument in task.arguments]
        _made(Task(task.name, elsewhere, task.work_bytes), cuts)
        for (to, length), (made, _) in zip(rooms.parts, others.parts):
            ctypes.memmove(to, made, length)
