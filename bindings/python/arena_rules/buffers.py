"""What callers give as lists of numbers: checked, and converted where no number changes.

A list is a buffer (bytes, bytearray, memoryview, array.array, an array of numpy) or a sequence of
whole numbers, nested or not. Where numpy is installed it does the work; without it a buffer needs
the very item type, and other lists are copied number by number. Nothing else is taken: floats and
bools are a TypeError, numbers out of range and wrong shapes a ValueError, and each names the
argument, what it was and what it may be.
"""

from __future__ import annotations

import ctypes
from array import array
from collections.abc import Iterator
from ctypes import c_uint8
from operator import index
from typing import Any, NamedTuple

try:
    import numpy as numpy  # also for the other modules
except ImportError:
    numpy = None  # type: ignore[assignment]

BYTES = (bytes, bytearray)


class Kind(NamedTuple):
    """A type of entries."""

    code: str  # of the module array
    size: int
    most: int
    words: str


BYTE = Kind("B", 1, 255, "whole numbers from 0 to 255, as of uint8")
WORD = Kind("I", 4, (1 << 32) - 1, "whole numbers from 0 to 4,294,967,295, as of uint32")


class Lent(NamedTuple):
    """Memory that a call may read or write as long as `owner` lives."""

    owner: Any
    at: int
    entries: int


EMPTY = (ctypes.c_uint64 * 1)()
NOTHING = Lent(EMPTY, ctypes.addressof(EMPTY), 0)


def number(name: str, given: Any, low: int, high: int) -> int:
    """A whole number of a range."""
    if isinstance(given, bool) or not hasattr(given, "__index__"):
        raise TypeError(f"{name} is {given!r}, and may be a whole number from {low} to {high}")
    found = index(given)
    if not low <= found <= high:
        raise ValueError(f"{name} is {found}, and may be {low} to {high}")
    return found


def position(name: str, given: Any, count: int) -> int:
    """An index of a list of `count` entries; negative ones are none."""
    if isinstance(given, bool) or not hasattr(given, "__index__"):
        raise TypeError(f"{name} is {given!r}, and may be a whole number")
    found = index(given)
    if not 0 <= found < count:
        raise IndexError(f"{name} is {found}, and may be 0 to {count - 1}")
    return found


def _type_fault(name: str, was: str, kind: Kind) -> TypeError:
    return TypeError(f"{name} is {was}, and may be {kind.words}")


def _range_fault(name: str, was: Any, kind: Kind) -> ValueError:
    return ValueError(f"{name} has the number {was}, and may have {kind.words}")


def _array_of(name: str, given: Any, kind: Kind) -> Any:
    """What was given as an array of numpy of the kind's type; the same memory where it fits."""
    if isinstance(given, BYTES):
        if kind is not BYTE:
            raise _type_fault(name, f"{type(given).__name__} of single bytes", kind)
        return numpy.frombuffer(given, "u1")
    try:
        found = numpy.asarray(given)
    except ValueError as fault:
        raise ValueError(f"{name}: {fault}") from None
    if found.size == 0:
        return numpy.zeros(found.shape, kind.code)
    if found.dtype.kind not in "ui":
        raise _type_fault(name, f"of the type {found.dtype}", kind)
    if found.dtype != kind.code:
        low, high = int(found.min()), int(found.max())
        if low < 0 or high > kind.most:
            raise _range_fault(name, low if low < 0 else high, kind)
        found = found.astype(kind.code)
    return numpy.ascontiguousarray(found)


def numbers(name: str, given: Any, kind: Kind, shapes: tuple[tuple[int, ...], ...]) -> Lent:
    """The memory of a list to read, whose shape is one of `shapes`; -1 is any length."""
    if numpy is None:
        return _plain_numbers(name, given, kind, shapes)
    is_array = type(given) is numpy.ndarray
    if is_array and given.dtype == kind.code and given.flags.c_contiguous:
        found = given
    else:
        found = _array_of(name, given, kind)
    shape = found.shape
    if shape not in shapes and not any(_fits(shape, wanted) for wanted in shapes):
        raise shape_fault(name, shape, shapes)
    if not found.size:
        return NOTHING
    return Lent(found, found.__array_interface__["data"][0], found.size)


def _fits(shape: tuple[int, ...], wanted: tuple[int, ...]) -> bool:
    pairs = zip(shape, wanted)
    return len(shape) == len(wanted) and all(most in (-1, length) for length, most in pairs)


def shape_fault(
    name: str, shape: tuple[int, ...], shapes: tuple[tuple[int, ...], ...]
) -> ValueError:
    """The error of a shape that is none of these."""
    may = " or ".join(str(it).replace("-1", "any") for it in dict.fromkeys(shapes))
    return ValueError(f"{name} has the shape {shape}, and may have {may}")


def _flat(name: str, given: Any, kind: Kind) -> Iterator[int]:
    for item in given:
        if isinstance(item, (list, tuple)):
            yield from _flat(name, item, kind)
        elif isinstance(item, bool) or not hasattr(item, "__index__"):
            raise _type_fault(name, f"a list with {item!r}", kind)
        elif not 0 <= index(item) <= kind.most:
            raise _range_fault(name, item, kind)
        else:
            yield index(item)


def _size(shape: tuple[int, ...]) -> int:
    size = 1
    for length in shape:
        size *= length
    return size


def _plain_numbers(name: str, given: Any, kind: Kind, shapes: tuple[tuple[int, ...], ...]) -> Lent:
    """`numbers` without numpy: the number of entries is checked, whatever the nesting."""
    if isinstance(given, (list, tuple)):
        found = array(kind.code, _flat(name, given, kind))
    else:
        try:
            view = memoryview(given)
        except TypeError:
            raise _type_fault(name, f"of the type {type(given).__name__}", kind) from None
        if view.format != kind.code:
            raise _type_fault(name, f"a buffer of the format {view.format!r}", kind)
        found = array(kind.code, view.tobytes())
    count = len(found)
    sizes = [_size(tuple(abs(it) for it in shape)) for shape in shapes]
    steps = [size if -1 in shape else 0 for size, shape in zip(sizes, shapes)]
    fits = any(count == size or (step and count % step == 0) for size, step in zip(sizes, steps))
    if not fits:
        raise shape_fault(name, (count,), shapes)
    at = found.buffer_info()[0] if count else NOTHING.at
    return Lent(found, at, count)


def room(name: str, given: Any, sizes: tuple[tuple[int, ...], ...]) -> Lent:
    """The memory of a buffer of bytes to write, whose shape is one of `sizes`."""
    try:
        view = memoryview(given)
    except TypeError:
        was = type(given).__name__
        raise TypeError(f"{name} is of the type {was}, and may be a buffer of bytes") from None
    if view.format not in ("B", "<B", "=B", "@B"):
        raise TypeError(f"{name} has items of the format {view.format!r}, and may have bytes, 'B'")
    if view.readonly:
        raise ValueError(f"{name} is read-only, and may be a buffer that can be written")
    if not view.c_contiguous:
        raise ValueError(f"{name} is not contiguous, and may be one block of memory")
    if view.shape not in sizes:
        raise shape_fault(name, view.shape or (), sizes)
    if view.nbytes == 0:
        return NOTHING
    return Lent(view, ctypes.addressof(c_uint8.from_buffer(view)), view.nbytes)


def overlap(name: str, lent: Lent, start: int, size: int) -> None:
    """Refuses memory that the call reads as well."""
    if lent.entries and lent.at < start + size and start < lent.at + lent.entries:
        raise ValueError(f"{name} is memory of the games themselves, and may be any other buffer")
