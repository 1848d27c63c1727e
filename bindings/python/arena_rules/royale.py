"""The map royale: games whose hazards close in. Needs numpy.

The structs of games have no hazards: a plane of them and their damage lie beside each game, and go
into its turn. Which cells are hazards next is what this module knows.
"""

from __future__ import annotations

import ctypes
import hashlib
from typing import TYPE_CHECKING, Any, NamedTuple

from arena_rules.buffers import number, numpy
from arena_rules.library import CAUSES, LAST_TURN, MODES, NOT_A_RECORD, ArenaError, check, library

if TYPE_CHECKING:
    from arena_rules.games import Games

LEFT, RIGHT, BOTTOM, TOP = range(4)
OUT_OF_HEALTH, HAZARD = CAUSES.index("out-of-health"), CAUSES.index("hazard")
HAZARDOUS = 3  # the version of a record with hazards
PLAIN = tuple(b"\2" if mode == "wrapped" else b"\1" for mode in MODES)  # that without, by mode


class Royale(NamedTuple):
    """The settings of the map royale.

    At each multiple of `shrink_every` turns one side of the board moves in by a cell, and all cells
    outside are hazards. They hurt from the next turn on: a head on a hazard and on no food loses
    `hazard_damage` more health. Which side moves in is drawn as the ladder draws it, from `seed`
    and the name of the game; the games are named "0", "1" and so on as they begin.
    """

    shrink_every: int = 25
    hazard_damage: int = 14
    seed: int = 0

    def side(self, game: str, shrink: int) -> int:
        """The side that moves in, for the first time with 0: 0 left, 1 right, 2 bottom, 3 top."""
        text = f"{self.seed}/{game}/sides/{shrink}"
        return int.from_bytes(hashlib.sha256(text.encode()).digest()[:8], "big") % 4


def map_of(given: Any) -> Royale | None:
    """The settings of a map; None for the standard one."""
    if given == "standard":
        return None
    if given == "royale":
        return Royale()
    if not isinstance(given, Royale):
        raise ValueError(f"map is {given!r}, and may be 'standard', 'royale' or a Royale")
    return Royale(
        number("shrink_every", given.shrink_every, 1, LAST_TURN),
        number("hazard_damage", given.hazard_damage, 0, 100),
        number("seed", given.seed, 0, (1 << 63) - 1),
    )


def address_of(array: Any) -> int:
    """Where the memory of an array begins."""
    address: int = array.__array_interface__["data"][0]
    return address


def damage_of(record: bytes) -> int:
    """Where the damage of the hazards is, behind the food."""
    return 11 + 512 * record[9] + 2 * record[10]


class Parts(NamedTuple):
    """Where the parts of a record begin, and the number of its cells with hazards."""

    damage: int
    hazards: int
    cells: int
    snakes: int


def parts_of(record: bytes) -> Parts:
    """The parts of a record with hazards, as docs/FORMATS.md has it."""
    damage = damage_of(record)
    count = 256 * record[damage + 1] + record[damage + 2]
    return Parts(damage, damage + 3, count, damage + 3 + 2 * count)


def without_hazards(record: bytes, parts: Parts) -> bytes:
    """The record without its hazards. It is legal unless a hazard has put a snake out."""
    return PLAIN[record[1]] + record[1 : parts.damage] + record[parts.snakes :]


def starved(record: bytes, snakes: int) -> tuple[bytes, list[int]]:
    """The record with snakes that starved where a hazard has put them out, and their seats."""
    plain, seats = bytearray(record), []
    for seat in range(plain[8]):
        cause = snakes + plain[snakes] + 2
        if plain[cause] == HAZARD:
            plain[cause] = OUT_OF_HEALTH
            seats.append(seat)
        snakes = cause + 6 + 2 * int.from_bytes(plain[cause + 4 : cause + 6], "big")
    return bytes(plain), seats


class Closing:
    """What lies beside games on the map: hazards, damages, what is inside, and names."""

    KEPT = ("hazards", "damages", "inside", "played")

    def __init__(self, games: Games, settings: Royale) -> None:
        if numpy is None:
            raise RuntimeError("games on the map royale need numpy")
        self.games, self.settings = games, settings
        self.hazards = numpy.zeros((games.count, games.height, games.width), "u1")
        self.damages = numpy.zeros(games.count, "u1")
        self.inside = numpy.zeros((games.count, 4), "i2")  # left, right, bottom, top
        self.played = numpy.zeros(games.count, bool)  # whether it was started or loaded
        self.names, self.begun = [""] * games.count, 0

    def kept(self) -> dict[str, Any]:
        """What pickle keeps."""
        names = ("settings", "names", "begun", *self.KEPT)
        return {name: getattr(self, name) for name in names}

    def restore(self, kept: dict[str, Any]) -> None:
        """Takes what was kept, as a copy."""
        self.names, self.begun = list(kept["names"]), kept["begun"]
        for name in self.KEPT:
            getattr(self, name)[:] = kept[name]

    def reseed(self, seed: int) -> None:
        """Takes another seed; the next game that begins has the name "0"."""
        self.settings, self.begun = self.settings._replace(seed=seed), 0

    def beside(self, low: int, count: int) -> dict[str, int]:
        """The fields of the orders of a range of games."""
        cells = self.games.width * self.games.height
        return {
            "hazards": address_of(self.hazards) + low * cells,
            "hazards_len": count * cells,
            "hazards_each": cells,
            "damages": address_of(self.damages) + low,
            "damages_len": count,
        }

    def _name(self, game: int) -> None:
        self.names[game], self.begun = str(self.begun), self.begun + 1

    def begin(self, which: Any) -> None:
        """The marked games were started; those that could not be are over, without a snake."""
        rows = numpy.flatnonzero(which)
        self.hazards[rows] = 0
        self.damages[rows] = self.settings.hazard_damage
        self.inside[rows] = 0, self.games.width - 1, 0, self.games.height - 1
        self.played[rows] = self.games.states["head"]["living"][rows] > 0
        for game in rows.tolist():
            self._name(game)

    def playing(self) -> Any:
        """The games that the next turn plays."""
        head = self.games.states["head"]
        return self.played & (head["over"] == 0) & (head["turn"] < LAST_TURN)

    def close(self, played: Any) -> None:
        """Moves a side in where one is to, after a turn of the marked games."""
        turns = self.games.states["head"]["turn"]
        left, right, bottom, top = self.inside.T
        is_open = (left <= right) & (bottom <= top)
        closing = played & is_open & (turns % self.settings.shrink_every == 0)
        for game in numpy.flatnonzero(closing).tolist():
            self.inside[game] = self._moved_in(game, int(turns[game]))
            self._draw(game)

    def _draw(self, game: int) -> None:
        """Writes the plane of a game."""
        left, right, bottom, top = self.inside[game].tolist()
        self.hazards[game] = 1
        self.hazards[game, bottom : top + 1, left : right + 1] = 0

    def _moved_in(self, game: int, turn: int) -> tuple[int, int, int, int]:
        """The columns and rows that are inside after this turn, in which a side moves in."""
        left, right, bottom, top = self.inside[game].tolist()
        side = self.settings.side(self.names[game], turn // self.settings.shrink_every - 1)
        left, right = left + (side == LEFT), right - (side == RIGHT)
        return left, right, bottom + (side == BOTTOM), top - (side == TOP)

    def _outside(self, inside: tuple[int, int, int, int]) -> bytes:
        """The cells outside, column by column."""
        left, right, bottom, top = inside
        return bytes(
            side
            for x in range(self.games.width)
            for y in range(self.games.height)
            if not (left <= x <= right and bottom <= y <= top)
            for side in (x, y)
        )

    def record(self, game: int, plain: bytes) -> bytes:
        """The record of a game from that of its board without the hazards."""
        if not self.played[game]:
            return b""
        left, right, bottom, top = self.inside[game].tolist()
        cells, at = self._outside((left, right, bottom, top)), damage_of(plain)
        head = bytes((self.damages[game],)) + (len(cells) // 2).to_bytes(2, "big")
        return bytes((HAZARDOUS,)) + plain[1:at] + head + cells + plain[at:]

    def _load(self, record: bytes, parts: Parts, loaded: Any) -> None:
        """Loads the board of a record without its hazards to a struct."""
        plain, load = without_hazards(record, parts), self.games._load
        status = load(ctypes.byref(loaded), plain, len(plain))
        if status != NOT_A_RECORD:
            check(status)
            return
        plain, seats = starved(plain, parts.damage)
        check(load(ctypes.byref(loaded), plain, len(plain)))
        for seat in seats:
            loaded.head.seats[seat].cause = HAZARD

    def load(self, game: int, record: bytes) -> Any:
        """Takes the record of a legal board, and returns its struct; nothing is changed before it
        is known to fit. Its hazards are the cells outside of some columns and rows."""
        check(library.arena_legal(record, len(record)))
        if record[0] != HAZARDOUS:
            damage = damage_of(record)
            empty = bytes((self.settings.hazard_damage, 0, 0))
            record = bytes((HAZARDOUS,)) + record[1:damage] + empty + record[damage:]
        parts, loaded = parts_of(record), self.games._game()
        self._load(record, parts, loaded)
        self.games._check_sides(loaded)
        self.inside[game] = self._inside_of(record)
        self.damages[game], self.played[game] = record[parts.damage], True
        self._draw(game)
        self._name(game)
        return loaded

    def _inside_of(self, record: bytes) -> tuple[int, int, int, int]:
        """The columns and rows without hazards of a record of the map."""
        parts = parts_of(record)
        cells = record[parts.hazards : parts.snakes]
        pairs = {cells[at : at + 2] for at in range(0, len(cells), 2)}
        free = [
            (x, y)
            for x in range(self.games.width)
            for y in range(self.games.height)
            if bytes((x, y)) not in pairs
        ]
        columns, rows = {x for x, _ in free}, {y for _, y in free}
        if not free:
            return 1, 0, 1, 0
        inside = min(columns), max(columns), min(rows), max(rows)
        outside = self._outside(inside)
        same = {outside[at : at + 2] for at in range(0, len(outside), 2)} == pairs
        if not same or len(pairs) < parts.cells:
            why = "the hazards are not all cells outside of some columns and rows, as in royale"
            raise ArenaError(NOT_A_RECORD, why)
        return inside
