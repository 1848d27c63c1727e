"""What the environments share: many games, what is drawn for them, and what is seen of them."""

from __future__ import annotations

from collections.abc import Iterator
from ctypes import byref
from sys import getrefcount
from typing import Any

import numpy as np
from numpy.typing import NDArray

from arena_rules.buffers import NOTHING, Lent, number
from arena_rules.games import Games
from arena_rules.library import LAST_TURN, SEATS, ManyOrders, ManyStarts, library
from arena_rules.starts import check_seats, layouts

MOST_WORDS = 32
BLOCK = 4096
FEW = 64  # games whose heads are read where they are
# Numbers as arrays, which numpy compares with faster than with Python's.
LAST, BEYOND, MOST_LENGTH = np.array(LAST_TURN, "u2"), np.array(~3), np.array(255, "u2")
INFOS = ("alive", "cause", "killer", "turn")


def lent(array: NDArray[Any]) -> Lent:
    """An array of one's own, whose memory stays where it is."""
    return Lent(array, array.__array_interface__["data"][0], array.size)


class Rooms:
    """Arrays of bytes for what is returned. One that nobody else holds any more is given again, so
    that a loop that keeps nothing takes no new memory, which costs more than a turn."""

    MOST = 3

    def __init__(self, shape: tuple[int, ...]) -> None:
        self.shape, self._arrays = shape, [np.zeros(shape, "u1")]
        self._free = self._holders(0)

    def _holders(self, at: int) -> int:
        return getrefcount(self._arrays[at])

    def take(self) -> NDArray[np.uint8]:
        """An array that no caller has, with any contents."""
        for at in range(len(self._arrays)):
            if self._holders(at) == self._free:
                return self._arrays[at]
        made = np.empty(self.shape, "u1")
        if len(self._arrays) < self.MOST:
            self._arrays.append(made)
        return made


class OnePass:
    """A turn of all games, starts of some and all planes, over buffers that stay where they are.

    It is one call of the library for each range of games, where the library has that call.
    """

    def __init__(
        self,
        games: Games,
        moves: NDArray[Any],
        words: NDArray[Any],
        firsts: tuple[NDArray[Any], NDArray[Any], NDArray[Any]],
    ) -> None:
        self.games, self.lists = games, (moves, words, *firsts)
        self._lent = [lent(it) for it in self.lists]
        self._call: Any = getattr(library, games._prefix + "advance", None)
        self._whole = self._range(0, games.count)
        self._ranges = {low: self._range(low, count) for low, count in games._ranges}

    def _range(self, low: int, count: int) -> tuple[Any, Any]:
        """The orders and the starts of a range of games, as a call takes them."""
        return byref(self._orders_of(low, count)), byref(self._firsts_of(low, count))

    def _orders_of(self, low: int, count: int) -> ManyOrders:
        moves, words = self._lent[:2]
        seats, drawn = self.games.seats, self.lists[1].shape[1]
        return ManyOrders(
            moves.at + low * seats,
            count * seats,
            seats,
            words.at + 4 * low * drawn,
            count * drawn,
            drawn,
            **self.games._beside(low, count),
        )

    def _firsts_of(self, low: int, count: int) -> ManyStarts:
        starts, food, which = self._lent[2:]
        seats, foods = self.games.seats, self.lists[3].shape[1]
        return ManyStarts(
            starts.at + 2 * low * seats,
            count * seats,
            food.at + 2 * low * foods,
            count * foods,
            foods,
            which.at + low,
            count,
            self.games.settings,
        )

    def run(self, planes: NDArray[Any] | None) -> None:
        """Plays, starts and shows; no planes are written if there is no place for them."""
        if self._call is None:
            self._run_by_steps(planes)
            return
        closing, which = self.games._closing, self.lists[4]
        if closing is None:
            self._run_in_one(planes)
            return
        playing = closing.playing() & ~which
        self._run_in_one(planes)
        closing.close(playing)
        if np.count_nonzero(which):
            closing.begin(which)

    def _run_in_one(self, planes: NDArray[Any] | None) -> None:
        games, at, each, size = self.games, NOTHING.at, 1, 0
        if planes is not None:
            each = size = planes.size // games.count
            at = planes.__array_interface__["data"][0]
        if games._pool is None:
            orders, firsts = self._whole
            self._call(games._address, games.count, orders, firsts, at, games.count * size, each)
            return

        def one(low: int, count: int) -> None:
            orders, firsts = self._ranges[low]
            self._call(games._at(low), count, orders, firsts, at + low * size, count * size, each)

        games._each(one)

    def _run_by_steps(self, planes: NDArray[Any] | None) -> None:
        moves, words, starts, food, which = self.lists
        self.games._play(self._lent[0], self._lent[1], words.shape[1])
        if np.count_nonzero(which):
            self.games.start(starts, food, which)
        if planes is not None:
            each = planes.size // self.games.count
            self.games._show(planes.__array_interface__["data"][0], each)


class Core:
    """Games that begin anew when they have ended.

    All that is drawn comes from one generator, in blocks: after it is set, LAYOUTS first boards.
    The words of the food of max(1, BLOCK // count) turns are drawn together, when they are first
    needed: `integers(0, 2**32, (turns, count, words), uint32)`. So are the numbers of layouts of
    the games that begin, in the order of the games: `integers(0, LAYOUTS, max(BLOCK, count))`; what
    is left of a block that is too short is dropped. For the map royale its seed is drawn before all
    that: `integers(0, 2**63)`.
    """

    def __init__(self, count: int, words: int, settings: dict[str, Any]) -> None:
        self.games = games = Games(number("num_envs", count, 1, 1 << 24), **settings)
        self.count, self.seats = games.count, games.seats
        check_seats(games.width, games.height, games.seats)
        self.words = number("words", words, 0, MOST_WORDS)
        self.moves = np.zeros((self.count, self.seats), "u1")
        self._words = np.zeros((self.count, self.words), np.uint32)
        self._word_turns = max(1, BLOCK // self.count)
        self._which = np.zeros(self.count, bool)
        self._health_and_length = np.zeros((self.count, 2 * self.seats), "u1")
        self.rng: np.random.Generator | None = None
        self._word_blocks: Iterator[NDArray[Any]] = iter(())
        self._numbers, self._next = np.zeros(0, "i8"), 0
        self._layouts: tuple[NDArray[Any], NDArray[Any]] | None = None
        self._lay_out_heads()

    def _lay_out_heads(self) -> None:
        """The heads of all games side by side, which is far less memory than the games are."""
        head = self.games.states.dtype["head"]
        games = self.games.states.view("u1").reshape(self.count, -1)
        buffer = np.zeros((self.count, head.itemsize), "u1")
        used = head.itemsize - head["seats"].base.itemsize * (SEATS - self.seats)
        self._from, self._heads = games[:, :used], buffer[:, :used]
        self._is_few = self.count <= FEW
        heads = self.games.states["head"] if self._is_few else buffer.view(head)[:, 0]
        self._over, seats = heads["over"], heads["seats"]
        self._turn: NDArray[Any] = heads["turn"]
        self._seats: dict[str, NDArray[Any]] = {
            name: seats[name][:, : self.seats] for name in seats.dtype.names
        }

    def seed(self, rng: np.random.Generator) -> None:
        """Takes a generator, and draws the first boards."""
        games = self.games
        self.rng, self._word_blocks = rng, iter(())
        self._numbers, self._next = np.zeros(0, "i8"), 0
        if games._closing is not None:
            games._closing.reseed(int(rng.integers(0, 1 << 63)))
        self._layouts = layouts(rng, games.width, games.height, games.seats, games.mode)
        starts, food = self._layouts
        self._starts = np.zeros((self.count, *starts.shape[1:]), "u1")
        self._food = np.zeros((self.count, *food.shape[1:]), "u1")
        self._pass = OnePass(
            games, self.moves, self._words, (self._starts, self._food, self._which)
        )

    def _draw_starts(self, which: NDArray[Any]) -> None:
        """Draws first boards for the marked games."""
        assert self.rng is not None and self._layouts is not None
        rows = np.flatnonzero(which)
        starts, food = self._layouts
        if self._next + len(rows) > len(self._numbers):
            self._numbers = self.rng.integers(0, len(starts), max(BLOCK, self.count))
            self._next = 0
        drawn = self._numbers[self._next : self._next + len(rows)]
        self._next += len(rows)
        self._starts[rows], self._food[rows] = starts[drawn], food[drawn]

    def _draw_words(self) -> None:
        """Takes the words of the next turn."""
        words = next(self._word_blocks, None)
        if words is None:
            assert self.rng is not None
            shape = (self._word_turns, *self._words.shape)
            self._word_blocks = iter(self.rng.integers(0, 1 << 32, shape, np.uint32))
            words = next(self._word_blocks)
        self._words[:] = words

    def begin(self) -> None:
        """Begins all games anew."""
        self._draw_starts(np.ones(self.count, bool))
        self.games.start(self._starts, self._food)
        self.look()

    def take(self, actions: Any, shape: tuple[int, ...]) -> None:
        """Takes actions of this shape as the moves: 0 to 3 for up, down, left and right."""
        given = np.asarray(actions)
        if given.dtype.kind not in "iu":
            raise TypeError(f"actions are of the type {given.dtype}, and may be whole numbers")
        if given.shape != shape:
            raise ValueError(f"actions have the shape {given.shape}, and may have {shape}")
        if given.dtype == np.uint64:
            given = given.astype("i8")  # numbers beyond that become negative, and are refused
        if np.count_nonzero(np.bitwise_and(given, BEYOND)):
            raise ValueError(f"actions are {given.min()} to {given.max()}, and may be 0 to 3")
        np.copyto(self.moves, given.reshape(self.moves.shape), casting="unsafe")

    def turn(self, planes: NDArray[Any] | None) -> NDArray[Any]:
        """A turn of all games by `moves`, and new games where one had ended, which are returned.

        Writes the planes of all as `show` does.
        """
        self._draw_words()
        done = np.logical_or(self.over, self.cut)
        if np.count_nonzero(done):
            self._draw_starts(done)
        self._which[:] = done
        self._pass.run(planes)
        self.look()
        return done

    def look(self) -> None:
        """Reads the state of all games."""
        if not self._is_few:
            np.copyto(self._heads, self._from)
        self.alive = np.logical_not(self._seats["cause"])
        self.over = self._over.astype(bool)
        self.cut = np.greater_equal(self._turn, LAST)
        if np.count_nonzero(self.cut):
            self.cut &= ~self.over

    def planes(self, scalars: bool = True) -> int:
        """The number of planes of an observation: food and snakes; with `scalars` health and length
        of each snake; on a map the hazards."""
        return 1 + (3 if scalars else 1) * self.seats + (self.games.map is not None)

    def seat_numbers(self, name: str) -> NDArray[Any]:
        """A number of each seat, as it was looked at: a copy (count, seats)."""
        return self._seats[name].copy()

    def turns(self) -> NDArray[Any]:
        """The turn of each game: a copy."""
        return self._turn.copy()

    def show(self, into: NDArray[Any]) -> None:
        """Writes the planes of all games into an array (count, planes, height, width), of which
        the first 1 + seats are written."""
        self.games._show(into.__array_interface__["data"][0], into.size // self.count)

    def health_and_length(self) -> NDArray[Any]:
        """The health of all seats, then their lengths, at most 255: (count, 2 * seats); both are 0
        for a snake that is out. The next call writes the same memory."""
        seats, both = self.seats, self._health_and_length
        np.multiply(self._seats["health"], self.alive, out=both[:, :seats])
        length = np.minimum(self._seats["parts"], MOST_LENGTH)
        np.multiply(length, self.alive, out=both[:, seats:], casting="unsafe")
        return both

    def show_seats(self, into: NDArray[Any]) -> None:
        """Writes planes of health and of length behind those of the snakes."""
        seats, both = self.seats, self.health_and_length()
        cells = into.reshape(self.count, into.shape[1], -1)  # a plane is one run of bytes
        cells[:, 1 + seats : 1 + 3 * seats] = both[:, :, None]

    def show_hazards(self, into: NDArray[Any]) -> None:
        """Writes the plane of the hazards, the last one, for games on a map."""
        if self.games.map is not None:
            into[:, -1] = self.games.hazards

    def infos(self) -> dict[str, NDArray[Any]]:
        """Which snakes live, and what eliminated the others, by game and seat; each game's turn."""
        return {
            "alive": self.alive.copy(),
            "cause": self.seat_numbers("cause"),
            "killer": self.seat_numbers("killer"),
            "turn": self.turns(),
        }


def masks(count: int, *more: str) -> dict[str, NDArray[Any]]:
    """The masks that gymnasium has beside infos: of which environments each is given, here all."""
    given = np.ones(count, bool)
    given.flags.writeable = False
    return dict.fromkeys([f"_{name}" for name in (*INFOS, *more)], given)


def refuse_options(options: Any) -> None:
    """No option is known, so that one that does nothing is noticed."""
    if options:
        raise ValueError(f"options is {options!r}, and may be None or empty")
