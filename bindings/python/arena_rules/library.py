"""The shared object, and the structs and calls of arena.h as ctypes sees them."""

from __future__ import annotations

import ctypes
import os
from ctypes import Structure, c_char_p, c_int8, c_size_t, c_uint8, c_uint16, c_void_p
from pathlib import Path
from typing import Any

SEATS = 8
LAST_TURN = 10_000
MODES = {"standard": 0, "solo": 1, "constrictor": 2, "wrapped": 3}
CAUSES = (
    None,
    "out-of-health",
    "wall-collision",
    "snake-self-collision",
    "snake-collision",
    "head-collision",
    "hazard",
)
FAULTS = (
    None,
    "not the record of a legal board",
    "a setup that exceeds a limit",
    "no turn follows turn 10,000",
    "no room",
    "out of memory",
    "a board with hazards",
)


NOT_A_RECORD, NOT_A_SETUP = 1, 2


class ArenaError(Exception):
    """A call that has no answer; `status` is that of arena.h."""

    status: int

    def __init__(self, status: int, why: str | None = None) -> None:
        words = FAULTS[status] if status < len(FAULTS) else f"status {status}"
        super().__init__(words or "")
        if why is not None:
            self.args = (f"{words}: {why}",)
        self.status = status

    def __reduce__(self) -> tuple[Any, ...]:
        return _error, (self.status, self.args[0])


def _error(status: int, text: str) -> ArenaError:
    error = ArenaError(status)
    error.args = (text,)
    return error


class Cell(Structure):
    """A cell of a board; (0, 0) is the bottom left."""

    _fields_ = [("x", c_uint8), ("y", c_uint8)]


class Place(Structure):
    """A cell of a board, or one next to it."""

    _fields_ = [("x", c_int8), ("y", c_int8)]


class Settings(Structure):
    """The settings of a game."""

    _fields_ = [
        (name, c_uint8) for name in ("mode", "width", "height", "seats", "min_food", "chance")
    ]


class Seat(Structure):
    """One seat of a game."""

    _fields_ = [
        ("parts", c_uint16),
        ("out", c_uint16),
        ("health", c_uint8),
        ("cause", c_uint8),
        ("killer", c_uint8),
        ("spare", c_uint8),
    ]


class Head(Structure):
    """A game without its cells."""

    _fields_ = [
        ("settings", Settings),
        ("turn", c_uint16),
        ("foods", c_uint16),
        ("living", c_uint8),
        ("over", c_uint8),
        ("seats", Seat * SEATS),
    ]


class SmallGame(Structure):
    """A game on a board of at most 11 by 11 cells."""

    _fields_ = [
        ("head", Head),
        ("food", c_uint16 * 121),
        ("plane", c_uint8 * 416),
        ("bodies", c_uint16 * 1000),
    ]


class LargeGame(Structure):
    """A game on a board of at most 25 by 25 cells."""

    _fields_ = [
        ("head", Head),
        ("food", c_uint16 * 625),
        ("plane", c_uint8 * 864),
        ("bodies", c_uint16 * 5032),
    ]


def _slice(name: str) -> list[tuple[str, type]]:
    """A list: where it is, and the number of its entries."""
    return [(name, c_void_p), (name + "_len", c_size_t)]


class ManyOrders(Structure):
    """The orders of many games."""

    _fields_ = [
        *_slice("moves"),
        ("moves_each", c_size_t),
        *_slice("words"),
        ("words_each", c_size_t),
        *_slice("hazards"),
        ("hazards_each", c_size_t),
        *_slice("damages"),
    ]


class ManyStarts(Structure):
    """The first boards of many games."""

    _fields_ = [
        *_slice("starts"),
        *_slice("food"),
        ("food_each", c_size_t),
        *_slice("which"),
        ("settings", Settings),
    ]


def _text(name: str) -> list[tuple[str, type]]:
    """A list that is given as bytes, which the struct keeps alive."""
    return [(name, c_char_p), (name + "_len", c_size_t)]


class SeatOrders(Structure):
    """The orders of one turn; the words are bytes in the order of the machine."""

    _fields_ = [
        *_text("moves"),
        *_text("words"),
        *_text("hazards"),
        *_text("food"),
        ("has_hazards", c_uint8),
        ("has_food", c_uint8),
    ]


class SeatSetup(Structure):
    """A setup by seats."""

    _fields_ = [
        *_text("starts"),
        *_text("food"),
        *_text("hazards"),
        *(
            (name, c_uint8)
            for name in ("mode", "width", "height", "min_food", "chance", "has_hazards", "damage")
        ),
    ]


# The structs in the order of the sizes that arena_layout writes.
STRUCTS = (
    Settings,
    Seat,
    Head,
    SmallGame,
    LargeGame,
    Cell,
    Place,
    ManyOrders,
    ManyStarts,
    SeatOrders,
    SeatSetup,
)

_LIST = [c_void_p, c_size_t]
_RECORD_CALLS: dict[str, Any] = {
    "arena_legal": (_LIST, c_uint8),
    "arena_over": ([*_LIST, c_void_p], c_uint8),
    "arena_start": ([c_void_p, *_LIST, c_void_p], c_uint8),
    "arena_turn": ([*_LIST, c_void_p, *_LIST, c_void_p], c_uint8),
    "arena_turns": ([*_LIST, *_LIST, *_LIST, c_void_p], c_size_t),
    "arena_layout": ([c_void_p, c_void_p, *_LIST], None),
    "arena_version": ([], c_char_p),
    "arena_built": ([], c_char_p),
}
_GAME_CALLS: dict[str, Any] = {
    "start": ([*_LIST, c_void_p], c_size_t),
    "step": ([*_LIST, c_void_p], None),
    "planes": ([*_LIST, *_LIST, c_size_t], None),
    "food": ([c_void_p, *_LIST], c_size_t),
    "body": ([c_void_p, c_size_t, *_LIST], c_size_t),
    "save": ([c_void_p, *_LIST], c_size_t),
    "load": ([c_void_p, *_LIST], c_uint8),
    "advance": ([*_LIST, c_void_p, c_void_p, *_LIST, c_size_t], c_size_t),
}
_MAY_LACK = ("advance",)


def _open() -> ctypes.CDLL:
    """The shared object that ARENA_RULES names, else the one beside this file."""
    path = os.environ.get("ARENA_RULES") or Path(__file__).with_name("libarena_rules.so")
    library = ctypes.CDLL(str(path))
    calls = dict(_RECORD_CALLS)
    for size in ("small", "large"):
        calls.update((f"arena_{size}_{name}", call) for name, call in _GAME_CALLS.items())
    for name, (arguments, result) in calls.items():
        if name.endswith(_MAY_LACK) and not hasattr(library, name):
            continue
        call = getattr(library, name)
        call.argtypes, call.restype = arguments, result
    return library


library = _open()


def check(status: int) -> None:
    """Raises the error of a status that is not 0."""
    if status:
        raise ArenaError(status)


def mode_number(mode: str) -> int:
    """The number of a mode."""
    if mode not in MODES:
        more = "; royale is a map of standard games" if mode == "royale" else ""
        raise ValueError(f"mode is {mode!r}, and may be {', '.join(MODES)}{more}")
    return MODES[mode]
