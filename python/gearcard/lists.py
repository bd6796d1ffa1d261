"""Lists as callers have them, lent to the functions.

A buffer of the right numbers (`array`, `bytearray`, `memoryview`, an array of numpy) is lent as it is. A plain list, and a buffer of other whole numbers or
with gaps between them, is copied, and what a function writes is written back when it has accepted. Everything that can be wrong with a list is found
before anything is called, and so an edit changes the lists that it is given, or none of them.

Calls from several threads are one step each: one lock, `STEP`, is held from before the first number is read until the last is written. A fork waits for it,
so that the child has it free, and no list half written. A thread that writes into a list by itself, and not by a call, takes no lock and is not waited for.
"""

from __future__ import annotations

import ctypes
import threading
from array import array
from collections import deque
from collections.abc import Callable, Sequence
from itertools import combinations, repeat
from operator import setitem
from typing import Any

from .system import at_fork

#: What a list of speeds, of holds or of card bytes may be.
Numbers = Any

#: Formats of a buffer whose elements are whole numbers, and can be copied.
_WHOLE = frozenset("bBhHiIlLqQ")

#: Whoever has it is alone with the lists. One thread may take it twice, as `edits` does around calls.
STEP = threading.RLock()
at_fork(STEP)


class _Buffer(ctypes.Structure):
    """What Python tells a C program of a buffer: `Py_buffer` of its stable interface. Of all this only the address, `buf`, is asked for here: what ctypes
    has for it, `from_buffer`, takes no buffer that is only read, and none with gaps, whose address tells whether two lists share memory."""

    _fields_ = [
        ("buf", ctypes.c_void_p),
        ("obj", ctypes.c_void_p),
        ("len", ctypes.c_ssize_t),
        ("itemsize", ctypes.c_ssize_t),
        ("readonly", ctypes.c_int),
        ("ndim", ctypes.c_int),
        ("format", ctypes.c_char_p),
        ("shape", ctypes.c_void_p),
        ("strides", ctypes.c_void_p),
        ("suboffsets", ctypes.c_void_p),
        ("internal", ctypes.c_void_p),
    ]


_get_buffer = ctypes.pythonapi.PyObject_GetBuffer
_get_buffer.argtypes = (ctypes.py_object, ctypes.POINTER(_Buffer), ctypes.c_int)
_release_buffer = ctypes.pythonapi.PyBuffer_Release
_release_buffer.argtypes = (ctypes.POINTER(_Buffer),)
_release_buffer.restype = None
_STRIDES = 0x18


def _address(view: memoryview) -> int:
    """Of the first element. It stays there as long as the view is held: until then Python lets nobody move or shorten what it is a view of."""
    found = _Buffer()
    _get_buffer(view, found, _STRIDES)
    address: int = found.buf
    _release_buffer(found)
    return address


def _step(view: memoryview) -> int:
    """Bytes from one element to the next."""
    assert view.strides is not None
    return view.strides[0]


class Lent:
    """A list for one call, looked at: `code` is "B" or "H", the numbers that the function takes, and `writes` says that it may write them."""

    __slots__ = ("name", "values", "code", "writes", "view", "address", "low", "high", "as_it_is")

    def __init__(self, name: str, values: Numbers, code: str, writes: bool = False) -> None:
        self.name, self.values, self.code, self.writes = name, values, code, writes
        try:
            self.view: memoryview | None = memoryview(values)
        except TypeError:
            self._look_at_list()
        else:
            self._look_at(self.view)

    def __len__(self) -> int:
        return len(self.values if self.view is None else self.view)

    def _look_at_list(self) -> None:
        # A kind of list may store as it likes, and fail half-way.
        if self.writes and type(self.values) is not list:
            raise TypeError(f"{self.name} cannot be written: {type(self.values).__name__}")
        if not isinstance(self.values, (list, tuple, range)):
            raise TypeError(f"{self.name} is no list and no buffer: {type(self.values).__name__}")
        # It shares no memory, and stands at its own.
        self.view, self.as_it_is = None, False
        self.address = self.low = id(self.values)
        self.high = self.low + 1

    def _look_at(self, view: memoryview) -> None:
        if view.ndim != 1:
            raise TypeError(f"{self.name} has {view.ndim} dimensions, and not one")
        if view.format not in _WHOLE:
            raise TypeError(f"{self.name} is a buffer of {view.format!r}, and not of whole numbers")
        step = _step(view)
        if self.writes and (view.readonly or abs(step) < view.itemsize):
            raise TypeError(f"{self.name} cannot be written: {type(self.values).__name__}")
        self.address = self.low = address = _address(view)
        self.high = address + view.nbytes
        if not view.c_contiguous:
            last = address + step * (len(view) - 1)
            self.low, self.high = min(address, last), max(address, last) + view.itemsize
        self.as_it_is = view.format == self.code and view.c_contiguous and address % view.itemsize == 0

    def shares(self, other: Lent) -> bool:
        """Whether an element of one lies in an element of the other. Columns of one table lie between each other, and share nothing."""
        if self.high <= other.low or other.high <= self.low:
            return False
        if self.view is None or other.view is None:
            return True
        return (self.view.c_contiguous and other.view.c_contiguous) or not _bytes(self).isdisjoint(_bytes(other))

    def copied(self) -> array[int]:
        """The numbers, in memory of their own."""
        items = self.values if self.view is None else self.view.tolist()
        try:
            return array(self.code, items)
        except (TypeError, OverflowError):
            raise self._wrong(items) from None

    def _wrong(self, items: Sequence[Any]) -> Exception:
        most = 2 ** (8 * array(self.code).itemsize) - 1
        for place, value in enumerate(items):
            try:
                array(self.code, (value,))
            except TypeError:
                return TypeError(f"{self.name}[{place}] = {value!r} is no whole number")
            except OverflowError:
                return ValueError(f"{self.name}[{place}] = {value!r} is no whole number from 0 to {most}")
        return ValueError(f"{self.name} changed while it was read")

    def back(self, copy: array[int]) -> tuple[Any, Any]:
        """What is written into, and what: the whole of it, in the caller's own form."""
        return (self.values, copy.tolist()) if self.view is None else (self.view, array(self.view.format, copy))


def _bytes(lent: Lent) -> set[int]:
    view = lent.view
    assert view is not None
    return {lent.address + k * _step(view) + byte for k in range(len(view)) for byte in range(view.itemsize)}


def call(function: Callable[..., Any], before: tuple[Any, ...], lists: tuple[Lent, ...], after: tuple[Any, ...] = ()) -> Any:
    """Calls a function with the lists between its other arguments, and answers what it answers."""
    for one, two in combinations(lists, 2):
        if (one.writes or two.writes) and one.shares(two):
            raise ValueError(f"{one.name} and {two.name} share memory")
    with STEP:
        if all(each.as_it_is for each in lists):
            return function(*before, *_arguments(lists), *after)
        return _called_with_copies(function, before, lists, after)


def put(backs: Sequence[tuple[Any, Any]]) -> None:
    """Writes numbers into lists: into the whole of each first, the second. An interrupt by a signal comes before all of them or behind: Python looks for one
    between two steps of its own, and this is a single step, which `map` and `deque` go through in C."""
    into, new = [each for each, _ in backs], [each for _, each in backs]
    deque(map(setitem, into, repeat(slice(None)), new), maxlen=0)


def _arguments(lists: Sequence[Lent]) -> list[int]:
    return [number for each in lists for number in (each.address, len(each))]


def _called_with_copies(function: Callable[..., Any], before: tuple[Any, ...], lists: tuple[Lent, ...], after: tuple[Any, ...]) -> Any:
    # Where one that is written has to be copied, all are: then they are written back together.
    together = any(each.writes and not each.as_it_is for each in lists)
    copies = [each.copied() if not each.as_it_is or (each.writes and together) else None for each in lists]
    lent = [each if copy is None else Lent(each.name, copy, each.code) for each, copy in zip(lists, copies)]
    answer = function(*before, *_arguments(lent), *after)
    if getattr(answer, "verdict", answer).number == 0:
        put([each.back(copy) for each, copy in zip(lists, copies) if each.writes and copy is not None])
    return answer
