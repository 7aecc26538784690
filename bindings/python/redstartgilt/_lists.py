"""Lists as the library takes them: an address and a length, by the buffer protocol."""

from __future__ import annotations

import ctypes
import mmap
import operator
import sys
from array import array
from typing import Any, List, Optional

TOP_WORD = 2**32 - 1
"""Above every index that the library accepts; it stands for an index that no word can hold, and is refused as that is."""

_ITEM_BYTES = {"I": 4, "d": 8, "q": 8, "B": 1}
# Signed words fit, as a negative one reads as one above every index, and is refused.
_FORMATS = {"I": "IiLl", "d": "d", "q": "ql", "B": "Bbc?"}
_NAMES = {
    "I": "integers of 32 bits",
    "d": "floats of 64 bits",
    "q": "signed integers of 64 bits",
    "B": "bytes",
}
_MANY_BYTES = 2**16
_NATIVE_ORDER = "@=<" if sys.byteorder == "little" else "@=>!"


class _Buffer(ctypes.Structure):
    """Python's own Py_buffer, of which the address is read."""

    _fields_ = [
        ("buf", ctypes.c_void_p),
        ("obj", ctypes.c_void_p),
        ("len", ctypes.c_ssize_t),
        ("itemsize", ctypes.c_ssize_t),
        ("readonly", ctypes.c_int),
        ("ndim", ctypes.c_int),
        ("format", ctypes.c_void_p),
        ("shape", ctypes.c_void_p),
        ("strides", ctypes.c_void_p),
        ("suboffsets", ctypes.c_void_p),
        ("internal", ctypes.c_void_p),
    ]


_get_buffer = ctypes.pythonapi.PyObject_GetBuffer
_get_buffer.argtypes = [ctypes.py_object, ctypes.POINTER(_Buffer), ctypes.c_int]
_get_buffer.restype = ctypes.c_int
_release_buffer = ctypes.pythonapi.PyBuffer_Release
_release_buffer.argtypes = [ctypes.POINTER(_Buffer)]
_release_buffer.restype = None

# What a list without items points at: not NULL, and aligned.
_NOTHING = ctypes.c_uint64()
_NOTHING_ADDRESS = ctypes.addressof(_NOTHING)


class Lent:
    """A list that a call may read, or write where `writable`. Its memory stays as long as this does."""

    __slots__ = ("kind", "view", "address", "length", "writable")

    def __init__(self, kind: str, view: memoryview):
        self.kind = kind
        self.view = view
        self.length = len(view)
        self.writable = not view.readonly
        self.address = _address(view) if self.length else _NOTHING_ADDRESS

    def __len__(self) -> int:
        return self.length


def _address(view: memoryview) -> int:
    buffer = _Buffer()
    _get_buffer(view, ctypes.byref(buffer), 0)
    address = buffer.buf
    _release_buffer(ctypes.byref(buffer))
    return address


def _misfit(kind: str, view: memoryview) -> Optional[Exception]:
    """Why a buffer cannot be lent as it is."""
    if view.ndim != 1:
        return ValueError(f"has {view.ndim} dimensions, and a list has 1")
    form = view.format.lstrip(_NATIVE_ORDER)
    if form not in _FORMATS[kind] or len(form) != 1 or view.itemsize != _ITEM_BYTES[kind]:
        return TypeError(f"has items of format {view.format!r}, and {_NAMES[kind]} are needed")
    if not view.c_contiguous:
        return ValueError("has places between its items, and must be contiguous")
    return None


def lend(kind: str, buffer: Any, name: str, writing: bool = False) -> Lent:
    """A buffer as it is; one that does not fit, or is read-only where it is written to, is an error."""
    misfit: Optional[Exception] = None
    if isinstance(buffer, Lent):
        lent = buffer
        if lent.kind != kind:
            misfit = TypeError(f"has {_NAMES[lent.kind]}, and {_NAMES[kind]} are needed")
    else:
        try:
            view = memoryview(buffer)
        except TypeError:
            raise TypeError(f"{name} is no buffer: {type(buffer).__name__}") from None
        misfit = _misfit(kind, view)
        if misfit is None:
            lent = Lent(kind, view)
    if misfit is None and lent.address % _ITEM_BYTES[kind]:
        misfit = ValueError("is not aligned for its items")
    if misfit is None and writing and not lent.writable:
        misfit = TypeError("is read-only, and the library writes to it")
    if misfit is not None:
        raise type(misfit)(f"{name} {misfit}")
    return lent


def take(kind: str, data: Any, name: str, copy: bool = False) -> Lent:
    """A list to read: a buffer that fits is lent as it is, unless a copy is asked for; anything else is copied once."""
    if isinstance(data, Lent):
        return lend(kind, data, name)
    try:
        view: Optional[memoryview] = memoryview(data)
    except TypeError:
        view = None
    if view is not None and view.ndim != 1:
        raise ValueError(f"{name} has {view.ndim} dimensions, and a list has 1")
    if view is not None and not copy and _misfit(kind, view) is None:
        lent = Lent(kind, view)
        if lent.address % _ITEM_BYTES[kind] == 0:
            return lent
    return Lent(kind, memoryview(_copied(kind, data, view, name)))


def _copied(kind: str, data: Any, view: Optional[memoryview], name: str) -> array:
    if isinstance(data, str):
        raise TypeError(f"{name} is text, and no list of numbers")
    if view is not None and view.c_contiguous and _misfit(kind, view) is None:
        copy = array(kind)
        copy.frombytes(view.cast("B"))
        return copy
    items = data.tolist() if hasattr(data, "tolist") else list(data)
    try:
        return _CONVERTERS[kind](items)
    except (TypeError, ValueError, OverflowError) as error:
        raise type(error)(f"{name}: {error}") from None


def word(index: Any) -> int:
    """An index as a word."""
    number = operator.index(index)
    return number if 0 <= number <= TOP_WORD else TOP_WORD


def _words(items: List[Any]) -> array:
    return array("I", [word(item) for item in items])


def _floats(items: List[Any]) -> array:
    floats = array("d", items)
    for item, value in zip(items, floats):
        if isinstance(item, int) and item != value:
            raise ValueError(f"{item} has too many digits for a float of 64 bits")
    return floats


def _whole(item: Any) -> int:
    if isinstance(item, float):
        if not item.is_integer():
            raise ValueError(f"{item} is no whole number")
        return int(item)
    return operator.index(item)


def _wholes(items: List[Any]) -> array:
    wholes = [_whole(item) for item in items]
    for item in wholes:
        if not -(2**63) <= item < 2**63:
            raise ValueError(f"{item} is no whole number of 64 bits")
    return array("q", wholes)


_CONVERTERS = {"I": _words, "d": _floats, "q": _wholes, "B": lambda items: array("B", items)}


def room(kind: str, length: int) -> Lent:
    """So many places of 0, for the library to write to. Of many, those never written to take no memory."""
    size = length * _ITEM_BYTES[kind]
    memory: Any
    if size < _MANY_BYTES:
        memory = bytearray(size)
    else:
        # Private, so that a process that is forked has its own.
        memory = mmap.mmap(-1, size, flags=mmap.MAP_PRIVATE | mmap.MAP_ANONYMOUS)
    return Lent(kind, memoryview(memory).cast(kind))


def copied(lent: Lent, length: int) -> array:
    """The first places of a list, copied."""
    copy = array(lent.kind)
    copy.frombytes(lent.view[:length].cast("B"))
    return copy
