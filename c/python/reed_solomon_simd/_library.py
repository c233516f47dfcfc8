"""The C library: its calls, its faults as exceptions, and its tables, which are made once."""
import ctypes
import os
import threading
from typing import Optional, Tuple

OUT_OF_MEMORY = 1


class Fault(ctypes.Structure):
    """struct rs_fault."""

    _fields_ = [("number", ctypes.c_uint32), ("first", ctypes.c_size_t), ("second", ctypes.c_size_t),
                ("third", ctypes.c_size_t)]


def _opened() -> ctypes.CDLL:
    own = os.path.join(os.path.dirname(os.path.abspath(__file__)), "libreed_solomon_simd.so.1")
    library = ctypes.CDLL(own if os.path.exists(own) else "libreed_solomon_simd.so.1")
    size, pointer, fault = ctypes.c_size_t, ctypes.c_void_p, ctypes.POINTER(Fault)
    array = [pointer, size]
    library.rs_tables_make.argtypes = [pointer]
    library.rs_tables_bytes.argtypes = []
    library.rs_tables_bytes.restype = size
    library.rs_supports.argtypes = [size, size]
    library.rs_encode_shards.argtypes = [pointer, size, size, *array, *array, fault]
    library.rs_decode_shards.argtypes = [pointer, size, size, *array, *array, *array, fault]
    library.rs_verify.argtypes = [pointer, size, size, *array, *array, fault]
    library.rs_reconstruct.argtypes = [pointer, size, size, *array, *array, *array, *array, fault]
    library.rs_update.argtypes = [pointer, size, size, size, *array, *array, *array, fault]
    for name in "encode_shards", "decode_shards", "verify", "reconstruct", "update":
        *words, last = getattr(library, f"rs_{name}").argtypes
        getattr(library, f"rs_{name}_with_work").argtypes = [*words, *array, last]
    for name, count in ("", 4), ("verify_", 3), ("reconstruct_", 4), ("update_", 2):
        function = getattr(library, f"rs_{name}work_bytes")
        function.argtypes, function.restype = [size] * count, size
    library.rs_fault_text.argtypes = [fault, ctypes.c_char_p, size]
    library.rs_fault_text.restype = size
    library.rs_status_name.argtypes = [ctypes.c_uint32]
    library.rs_status_name.restype = ctypes.c_char_p
    library.rs_shard_bytes.argtypes = [size, size]
    library.rs_shard_bytes.restype = size
    library.rs_version.argtypes = []
    return library


c = _opened()
_lock = threading.Lock()
_tables: Optional["ctypes.Array[ctypes.c_char]"] = None


class Error(ValueError):
    """A call of the C library failed. `number` is its status, `name` the name of the status, and `values` are the
    values of the fault.
    """

    number: int
    name: str
    values: Tuple[int, int, int]

    def __init__(self, number: int, values: Tuple[int, int, int] = (0, 0, 0)) -> None:
        text = ctypes.create_string_buffer(128)
        c.rs_fault_text(Fault(number, *values), text, len(text))
        super().__init__(text.value.decode())
        self.number, self.values = number, values
        self.name = c.rs_status_name(number).decode()

    def __reduce__(self) -> Tuple[type, Tuple[int, Tuple[int, int, int]]]:
        """Another process gets the number and the values, for example from a worker of a process pool."""
        return type(self), (self.number, self.values)


class OutOfMemory(Error, MemoryError):
    """The C library could not allocate memory. The name of the status is RS_OUT_OF_MEMORY."""


def check(fault: Fault) -> None:
    """Raises the exception of a fault, if it is one."""
    if fault.number:
        kind = OutOfMemory if fault.number == OUT_OF_MEMORY else Error
        raise kind(fault.number, (fault.first, fault.second, fault.third))


def made_tables() -> "ctypes.Array[ctypes.c_char]":
    """The tables. The first call makes them. If it fails, the next call tries again."""
    global _tables
    with _lock:
        if _tables is None:
            tables = ctypes.create_string_buffer(c.rs_tables_bytes())
            check(Fault(c.rs_tables_make(tables)))
            _tables = tables
        return _tables
