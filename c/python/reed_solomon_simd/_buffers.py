"""The memory of buffers, and numbers that the C library can take."""
import ctypes
import operator
from collections.abc import Mapping as AnyMapping
from typing import Any, Iterable, List, Mapping, Sequence, Tuple, Type

# An object with a contiguous buffer. Python has no type for it before 3.12.
Buffer = Any

SIMPLE, WRITABLE = 0, 1


# A part of memory: its address, and its length in bytes.
Part = Tuple[int, int]


class _View(ctypes.Structure):
    """Py_buffer of Python's C API."""

    _fields_ = [("buf", ctypes.c_void_p), ("obj", ctypes.c_void_p), ("len", ctypes.c_ssize_t),
                ("itemsize", ctypes.c_ssize_t),
                ("readonly", ctypes.c_int), ("ndim", ctypes.c_int), ("format", ctypes.c_char_p),
                ("shape", ctypes.c_void_p),
                ("strides", ctypes.c_void_p), ("suboffsets", ctypes.c_void_p), ("internal", ctypes.c_void_p)]


class Views:
    """Views of buffers, which keep their memory in place until the end of a `with` block."""

    def __init__(self) -> None:
        self._views: List[_View] = []

    def __enter__(self) -> "Views":
        return self

    def __exit__(self, *_: object) -> None:
        for view in self._views:
            ctypes.pythonapi.PyBuffer_Release(ctypes.byref(view))

    def parts(self, name: str, buffers: Iterable[Buffer], flags: int = SIMPLE) -> List[Part]:
        """The memory of each buffer of the argument `name`.

        Raises BufferError or ValueError if a buffer is not contiguous, or not writable although it has to be.
        """
        found = []
        for buffer in buffers:
            view = _View()
            try:
                ctypes.pythonapi.PyObject_GetBuffer(ctypes.py_object(buffer), ctypes.byref(view), flags)
            except TypeError:
                raise TypeError(f"{name} must consist of shards with a contiguous buffer, such as bytes or bytearray, "
                                f"and one of them is of type {type(buffer).__name__}") from None
            self._views.append(view)
            found.append((view.buf or 0, view.len))
        return found


def by_index(name: str, shards: Mapping[int, Buffer]) -> Mapping[int, Buffer]:
    """The argument `name`, which must be a mapping from indexes to shards."""
    if not isinstance(shards, AnyMapping):
        raise TypeError(f"{name} must be a mapping from index to shard, and not of type {type(shards).__name__}")
    return shards


def number(name: str, value: int, error: Type[Exception] = ValueError) -> int:
    """The argument `name` as an int that fits into 64 bits. ctypes would cut a larger one without a word."""
    whole = operator.index(value)
    if not 0 <= whole < 1 << 64:
        raise error(f"{name} must be at least 0 and less than 2^64, and it is {whole}")
    return whole


def index(value: int) -> int:
    """The index of a shard."""
    return number("the index of a shard", value, IndexError)


def check_apart(written: Sequence[Part], read: Sequence[Part]) -> None:
    """Raises ValueError if memory that a call writes overlaps other memory of this call. The C library forbids this and
    does not check it.
    """
    written_to = read_to = 0
    parts = [(address, address + length, True) for address, length in written if length]
    parts += [(address, address + length, False) for address, length in read if length]
    for start, end, is_written in sorted(parts):
        if start < written_to or is_written and start < read_to:
            raise ValueError("a buffer that the call writes overlaps another buffer of the call")
        if is_written:
            written_to = end
        else:
            read_to = max(read_to, end)
