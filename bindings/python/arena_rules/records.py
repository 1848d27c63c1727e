"""Exact calls on records: bytes in, bytes out. The contract of each says what it answers.

A record is that of docs/FORMATS.md. A call that has no answer raises `ArenaError`; arguments of
another type or out of range are a `TypeError` or a `ValueError` that names them.
"""

from __future__ import annotations

import ctypes
import threading
from array import array
from collections.abc import Iterable, Sequence
from ctypes import byref, c_size_t, c_uint8, string_at
from typing import Any

from arena_rules.buffers import BYTE, WORD, Kind, number, numbers, numpy
from arena_rules.library import SeatOrders, SeatSetup, check, library, mode_number
from arena_rules.states import from_state

__all__ = ["MOST_BYTES", "from_state", "is_legal", "is_over", "start", "turn"]
MOST_BYTES = 166_888
Cells = Iterable[tuple[int, int]]


class _Own:
    """What a thread keeps for its calls: room for a record, and the structs that are passed."""

    def __init__(self) -> None:
        self.room = ctypes.create_string_buffer(MOST_BYTES)
        self.length, self.over = c_size_t(), c_uint8()
        self.orders, self.setup = SeatOrders(), SeatSetup()
        self.length_at, self.over_at = byref(self.length), byref(self.over)
        self.orders_at, self.setup_at = byref(self.orders), byref(self.setup)
        self.orders.hazards = self.orders.food = b""
        self.has_map = False


class _Kept(threading.local):
    def __init__(self) -> None:
        self.own = _Own()


_kept = _Kept()


def _record(given: Any) -> bytes:
    if type(given) is not bytes:
        if not isinstance(given, (bytearray, memoryview)):
            was = type(given).__name__
            raise TypeError(f"record is of the type {was}, and may be bytes")
        return bytes(given)
    return given


def _bytes_of(name: str, given: Any, kind: Kind) -> bytes:
    """A list of numbers as the bytes of its entries; any length."""
    if type(given) is bytes and kind is BYTE:
        return given
    if type(given) in (list, tuple):
        try:
            if bool not in map(type, given):
                return bytes(given) if kind is BYTE else array(kind.code, given).tobytes()
        except (TypeError, ValueError, OverflowError):
            pass  # said by the general check
    lent = numbers(name, given, kind, ((-1,),))
    return string_at(lent.at, lent.entries * kind.size)


def _cells(name: str, given: Cells | None) -> bytes:
    """Cells as bytes, x and y of each."""
    if given is None:
        return b""
    if numpy is not None and isinstance(given, numpy.ndarray):
        lent = numbers(name, given, BYTE, ((-1, 2),))
        return string_at(lent.at, lent.entries)
    flat: list[int] = []
    for cell in given:
        if len(cell) != 2:
            raise ValueError(f"{name} has the cell {cell!r}, and may have pairs (x, y)")
        flat += cell
    return _bytes_of(name, flat, BYTE)


def is_legal(record: bytes) -> bool:
    """Whether the bytes are the record of a legal board."""
    record = _record(record)
    status = library.arena_legal(record, len(record))
    if status > 1:
        check(status)
    return bool(status == 0)


def is_over(record: bytes) -> bool:
    """Whether the game of a record is over."""
    record, own = _record(record), _kept.own
    check(library.arena_over(record, len(record), own.over_at))
    return own.over.value != 0


def start(
    starts: Cells,
    *,
    mode: str = "standard",
    width: int = 11,
    height: int = 11,
    food: Cells = (),
    min_food: int = 1,
    food_chance: int = 15,
    hazards: Cells | None = None,
    hazard_damage: int = 14,
) -> bytes:
    """The record of turn 0. Cells are pairs (x, y); no hazards at all if they are left out."""
    own = _kept.own
    setup = own.setup
    setup.mode = mode_number(mode)
    setup.width = number("width", width, 0, 255)
    setup.height = number("height", height, 0, 255)
    setup.min_food = number("min_food", min_food, 0, 255)
    setup.chance = number("food_chance", food_chance, 0, 255)
    setup.damage = number("hazard_damage", hazard_damage, 0, 255)
    setup.starts = cells = _cells("starts", starts)
    setup.starts_len = len(cells) // 2
    setup.food = cells = _cells("food", food)
    setup.food_len = len(cells) // 2
    setup.hazards = cells = _cells("hazards", hazards)
    setup.hazards_len, setup.has_hazards = len(cells) // 2, hazards is not None
    check(library.arena_start(own.setup_at, own.room, MOST_BYTES, own.length_at))
    return string_at(own.room, own.length.value)


def turn(
    record: bytes,
    moves: Sequence[int] | bytes,
    words: Sequence[int] = (),
    *,
    hazards: Cells | None = None,
    food: Cells | None = None,
) -> bytes:
    """The record after a turn.

    A move is 0 to 3 for up, down, left and right; a seat with another number up to 255, or without
    one, goes straight on. `words` are whole numbers below 2**32, of which the first 32 are used.
    `hazards` and `food` are cells that the map gives.
    """
    record, own = _record(record), _kept.own
    orders = own.orders
    orders.moves = moves = _bytes_of("moves", moves, BYTE)
    orders.moves_len = len(moves)
    orders.words = drawn = _bytes_of("words", words, WORD)
    orders.words_len = len(drawn) // 4
    if own.has_map or hazards is not None or food is not None:
        _give_map(own, hazards, food)
    status = library.arena_turn(
        record, len(record), own.orders_at, own.room, MOST_BYTES, own.length_at
    )
    if status:
        check(status)
    return string_at(own.room, own.length.value)


def _give_map(own: _Own, hazards: Cells | None, food: Cells | None) -> None:
    """Puts what the map gives into the orders."""
    orders = own.orders
    orders.hazards = cells = _cells("hazards", hazards)
    orders.hazards_len, orders.has_hazards = len(cells) // 2, hazards is not None
    orders.food = cells = _cells("food", food)
    orders.food_len, orders.has_food = len(cells) // 2, food is not None
    own.has_map = hazards is not None or food is not None
