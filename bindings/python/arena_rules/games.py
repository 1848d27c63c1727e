"""Many games in one block of memory."""

from __future__ import annotations

import ctypes
from collections.abc import Callable
from concurrent.futures import ThreadPoolExecutor
from ctypes import addressof, byref
from typing import Any, TypeVar

from arena_rules.buffers import (
    BYTE,
    EMPTY,
    NOTHING,
    WORD,
    Lent,
    number,
    numbers,
    numpy,
    overlap,
    position,
    room,
)
from arena_rules.library import (
    SEATS,
    LargeGame,
    ManyOrders,
    ManyStarts,
    Place,
    Settings,
    SmallGame,
    check,
    library,
    mode_number,
)
from arena_rules.royale import Closing, Royale, map_of

MOST_BYTES = 20_000  # more than the record of any game in memory has
MOST_GAMES = 1 << 24
STRIDE = 32  # the cell (x, y) of a game's lists is (y + 1) * STRIDE + x + 1
STEPS = (STRIDE, -STRIDE, -1, 1)  # up, down, left, right
Answer = TypeVar("Answer")


def dtype_of(struct: type) -> Any:
    """The structured numpy type of a ctypes struct."""
    return numpy.dtype(struct)


def _states(memory: Any, game: Any) -> Any:
    """Games as a structured array; None without numpy."""
    return None if numpy is None else numpy.frombuffer(memory, game)


class Games:
    """Games of one kind. The state of game i is `memory[i]`, a struct of plain numbers.

    With numpy `states` is the same memory as a structured array; a copy of a row is a copy of the
    game. `heads`, `lengths`, `health` and `alive` show what most programs ask for. A call releases
    the interpreter's lock, and cuts the games into as many ranges as there are threads; `close`
    ends these.

    With `map="royale"`, or a `Royale`, hazards close in. `hazards` has them: they lie beside the
    games, since `memory` and `states` have no room for them.

    Of a board in memory, a byte of `plane` counts the parts of living snakes on its cell, and has
    128 more where food is. The bytes around the board mean nothing: whether a cell is on the board
    is asked first, as `free_steps` does.
    """

    def __init__(
        self,
        count: int,
        *,
        width: int = 11,
        height: int = 11,
        seats: int = 4,
        mode: str = "standard",
        min_food: int = 1,
        food_chance: int = 15,
        map: str | Royale = "standard",
        threads: int = 1,
    ) -> None:
        self.count = number("count", count, 0, MOST_GAMES)
        self.width, self.height = number("width", width, 3, 25), number("height", height, 3, 25)
        self.seats = number("seats", seats, 1, SEATS)
        self.mode, self.threads = mode, number("threads", threads, 1, 1024)
        least, chance = number("min_food", min_food, 0, 255), number(
            "food_chance", food_chance, 0, 100
        )
        self.settings = Settings(
            mode_number(mode), self.width, self.height, self.seats, least, chance
        )
        small = max(self.width, self.height) <= 11
        self._game: Any = SmallGame if small else LargeGame
        self._size = ctypes.sizeof(self._game)
        self.memory: Any = (self._game * self.count)()
        self._prefix = f"arena_{'small' if small else 'large'}_"
        self._find_calls()
        settings = map_of(map)
        self._closing = None if settings is None else Closing(self, settings)
        self._lay_beside()

    def _lay_beside(self) -> None:
        """Orders of all games, with the hazards that lie beside them."""
        self._orders = ManyOrders(moves_each=self.seats, **self._beside(0, self.count))
        self._orders_at = byref(self._orders)

    def _beside(self, low: int, games: int) -> dict[str, int]:
        """The fields of the orders of a range of games that have the hazards."""
        if self._closing is None:
            return {"hazards": NOTHING.at, "damages": NOTHING.at}
        return self._closing.beside(low, games)

    def _find_calls(self) -> None:
        """What is not copied with the games: calls, views, threads."""
        self._step = getattr(library, self._prefix + "step")
        self._planes = getattr(library, self._prefix + "planes")
        self._load = getattr(library, self._prefix + "load")
        self.states = _states(self.memory, self._game)
        threads = self.threads
        self._pool = ThreadPoolExecutor(threads) if threads > 1 else None
        edges = [self.count * k // threads for k in range(threads + 1)]
        self._ranges = [(low, high - low) for low, high in zip(edges, edges[1:])]
        self._move_shapes = ((self.count, self.seats), (self.count * self.seats,))
        self._address = addressof(self.memory) if self.count else addressof(EMPTY)

    def __repr__(self) -> str:
        sides = f"width={self.width}, height={self.height}, seats={self.seats}"
        on = "" if self.map is None else f", map={self.map}"
        return f"Games({self.count}, {sides}, mode={self.mode!r}{on})"

    def __len__(self) -> int:
        return self.count

    def __getstate__(self) -> dict[str, Any]:
        """What pickle keeps: the settings and the bytes of the games."""
        names = ("count", "width", "height", "seats", "mode", "threads", "_prefix", "_size")
        state = {name: getattr(self, name) for name in names}
        return {
            **state,
            "_game": self._game,
            "settings": bytes(self.settings),
            "memory": bytes(self.memory),
            "_closing": None if self._closing is None else self._closing.kept(),
        }

    def __setstate__(self, state: dict[str, Any]) -> None:
        self.__dict__.update(state)
        self.settings = Settings.from_buffer_copy(state["settings"])
        self.memory = (self._game * self.count).from_buffer_copy(state["memory"])
        self._find_calls()
        kept = state["_closing"]
        if kept is not None:
            self._closing = Closing(self, kept["settings"])
            self._closing.restore(kept)
        self._lay_beside()

    def copy(self) -> "Games":
        """The same games in memory of their own."""
        twin = object.__new__(Games)
        twin.__setstate__(self.__getstate__())
        return twin

    def __copy__(self) -> "Games":
        return self.copy()

    def __deepcopy__(self, _: Any) -> "Games":
        return self.copy()

    def close(self) -> None:
        """Ends the threads; the games can still be played, by the calling thread."""
        if self._pool is not None:
            self._pool.shutdown()
            self._pool = None

    def __enter__(self) -> "Games":
        return self

    def __exit__(self, *_: object) -> None:
        self.close()

    def _each(self, call: Callable[[int, int], Answer]) -> list[Answer]:
        """Calls for each range of games."""
        if self._pool is None:
            return [call(low, count) for low, count in self._ranges]
        return list(self._pool.map(call, *zip(*self._ranges)))

    def _at(self, low: int) -> int:
        return self._address + low * self._size

    def _cells(self, name: str, given: Any, each: int) -> Lent:
        """A list with `each` cells for each game; -1 for any number."""
        shapes: tuple[tuple[int, ...], ...] = ((self.count, each, 2),)
        if each >= 0:
            shapes += ((self.count * each, 2), (self.count * each * 2,))
        else:
            shapes += ((-1,), (self.count, each))
        if self.count == 1:
            shapes += ((each, 2),)
        return numbers(name, given, BYTE, shapes)

    def _per_game(self, name: str, lent: Lent, unit: int = 1) -> int:
        """How many entries each game has of a list."""
        each, rest = divmod(lent.entries, max(self.count, 1) * unit)
        if rest or (lent.entries and not self.count):
            raise ValueError(
                f"{name} has {lent.entries} numbers, not as many for each of {self.count} games"
            )
        return each

    def start(self, starts: Any, food: Any = None, which: Any = None) -> int:
        """Starts games, and returns how many; a game whose cells do not fit is over, with no snake.

        `starts` holds a cell (x, y) for each seat of each game, of the shape (count, seats, 2) or
        flat, `food` as many cells for each game, `which` a mark for each game: those with 0 or
        False are left as they are.
        """
        cells = self._cells("starts", starts, self.seats)
        fed = NOTHING if food is None else self._cells("food", food, -1)
        each = self._per_game("food", fed, 2)
        marks = self._marks(which)
        call = getattr(library, self._prefix + "start")

        def one(low: int, games: int) -> int:
            first = ManyStarts(
                starts=cells.at + 2 * low * self.seats,
                starts_len=games * self.seats,
                food=fed.at + 2 * low * each,
                food_len=games * each,
                food_each=each,
                which=marks.at + low,
                which_len=games,
                settings=self.settings,
            )
            return int(call(self._at(low), games, byref(first)))

        started = sum(self._each(one))
        if self._closing is not None:
            marked = numpy.frombuffer(ctypes.string_at(marks.at, marks.entries), "u1")
            self._closing.begin(marked)
        return started

    def _marks(self, which: Any) -> Lent:
        if which is None:
            which = b"\1" * self.count
        elif numpy is not None and getattr(which, "dtype", None) == bool:
            which = numpy.ascontiguousarray(which).view("u1")
        return numbers("which", which, BYTE, ((self.count,),))

    def step(self, moves: Any, words: Any = None) -> None:
        """Plays a turn in each game that is not over and is below turn 10,000.

        `moves` holds for each game a number for each seat, of the shape (count, seats) or flat: 0
        to 3 for up, down, left and right, others up to 255 for straight on. `words` holds as many
        32-bit words for each game; without them no food appears.
        """
        turns = numbers("moves", moves, BYTE, self._move_shapes)
        drawn, each = NOTHING, 0
        if words is not None:
            drawn = numbers("words", words, WORD, ((self.count, -1), (-1,)))
            each = self._per_game("words", drawn)
        self._play(turns, drawn, each)

    def _play(self, turns: Lent, drawn: Lent, each: int) -> None:
        """A turn by lists that were checked; `turns` and `drawn` keep them alive."""
        playing = None if self._closing is None else self._closing.playing()
        self._play_all(turns, drawn, each)
        if self._closing is not None:
            self._closing.close(playing)

    def _play_all(self, turns: Lent, drawn: Lent, each: int) -> None:
        if self._pool is None:
            orders = self._orders
            orders.moves, orders.moves_len = turns.at, turns.entries
            orders.words, orders.words_len, orders.words_each = drawn.at, drawn.entries, each
            self._step(self._address, self.count, self._orders_at)
            return

        def one(low: int, games: int) -> None:
            orders = ManyOrders(
                turns.at + low * self.seats,
                games * self.seats,
                self.seats,
                drawn.at + 4 * low * each,
                games * each,
                each,
                **self._beside(low, games),
            )
            self._step(self._at(low), games, byref(orders))

        self._each(one)

    def planes(self, into: Any) -> None:
        """Writes the planes of each game, row by row from the bottom: food, then living snakes.

        `into` is a buffer of bytes that can be written, of the shape (count, 1 + seats, height,
        width) or flat. A byte of a snake's plane is the number of turns until that part is gone, if
        nothing is eaten.
        """
        sides = (1 + self.seats, self.height, self.width)
        each = sides[0] * sides[1] * sides[2]
        shapes = ((self.count, *sides), (self.count * each,), (self.count, each))
        lent = room("into", into, shapes if self.count != 1 else (*shapes, sides))
        overlap("into", lent, self._address, self.count * self._size)
        self._show(lent.at, each)

    def _show(self, at: int, each: int) -> None:
        """Writes the planes of each game to `each` bytes at an address."""

        def one(low: int, games: int) -> None:
            self._planes(self._at(low), games, at + low * each, games * each, each)

        self._each(one)

    @property
    def map(self) -> Royale | None:
        """The settings of the map royale; None on the standard map."""
        return None if self._closing is None else self._closing.settings

    @property
    def hazards(self) -> Any:
        """1 on each cell with a hazard, (count, height, width), row by row from the bottom; a view
        of what is there now. All 0 on the standard map."""
        if self._closing is None:
            self._seats_of("cause")
            return numpy.zeros((self.count, self.height, self.width), "u1")
        view = self._closing.hazards.view()
        view.flags.writeable = False
        return view

    def _seats_of(self, field: str) -> Any:
        if self.states is None:
            raise RuntimeError("views of all games need numpy")
        return self.states["head"]["seats"][field][:, : self.seats]

    @property
    def lengths(self) -> Any:
        """The number of parts of each snake, (count, seats): a view of the memory."""
        return self._seats_of("parts")

    @property
    def health(self) -> Any:
        """The health of each snake, (count, seats): a view of the memory."""
        return self._seats_of("health")

    @property
    def causes(self) -> Any:
        """Why each snake is out, as in `library.CAUSES`, 0 for a living one: a view."""
        return self._seats_of("cause")

    @property
    def alive(self) -> Any:
        """Whether each snake lives, (count, seats)."""
        return self.causes == 0

    @property
    def over(self) -> Any:
        """Whether each game is over, (count,)."""
        self._seats_of("cause")
        return self.states["head"]["over"] != 0

    @property
    def turns(self) -> Any:
        """The turn of each game, (count,): a view."""
        self._seats_of("cause")
        return self.states["head"]["turn"]

    @property
    def head_cells(self) -> Any:
        """The head of each snake as a cell of the lists, (count, seats): a view."""
        self._seats_of("cause")
        bodies = self.states["bodies"]
        return bodies[:, :: bodies.shape[1] // SEATS][:, : self.seats]

    @property
    def heads(self) -> Any:
        """The column x and the row y of each head, (count, seats, 2), -1 to the side: one beyond an
        edge for a snake that hit a wall. The head of a snake that is out stays where it was."""
        rows, columns = numpy.divmod(self.head_cells.astype("i2"), STRIDE)
        return numpy.stack([columns - 1, rows - 1], axis=-1)

    def free_steps(self) -> Any:
        """Which directions lead each head to a cell of the board without a living part.

        (count, seats, 4), for up, down, left and right. A tail that will move away counts as taken.
        """
        to = self.head_cells[:, :, None].astype("i4") + numpy.array(STEPS, "i4")
        rows, columns = to // STRIDE - 1, to % STRIDE - 1
        if self.mode == "wrapped":
            rows, columns = rows % self.height, columns % self.width
        on = (rows >= 0) & (rows < self.height) & (columns >= 0) & (columns < self.width)
        cells = numpy.where(on, (rows + 1) * STRIDE + columns + 1, 0)
        games = numpy.arange(self.count)[:, None, None]
        return on & (self.states["plane"][games, cells] & 127 == 0)

    def is_over(self, game: int) -> bool:
        """Whether a game is over."""
        return bool(self.memory[position("game", game, self.count)].head.over)

    def record(self, game: int) -> bytes:
        """The record of a game's board. Its snakes have the ids "0" to "7".

        b"" for a game that was neither started nor loaded. On the map royale it has the hazards.
        """
        game = position("game", game, self.count)
        into = ctypes.create_string_buffer(MOST_BYTES)
        call = getattr(library, self._prefix + "save")
        plain = ctypes.string_at(into, call(byref(self.memory[game]), into, MOST_BYTES))
        return plain if self._closing is None else self._closing.record(game, plain)

    def load(self, game: int, record: bytes) -> None:
        """Makes the game of a record, whose ids are not kept; after a fault it is as it was.

        The board has to have the sides and as many snakes as these games have seats. On the map
        royale its hazards have to be the cells outside of some columns and rows; the damage is that
        of the record.
        """
        game = position("game", game, self.count)
        if not isinstance(record, bytes):
            if not isinstance(record, (bytearray, memoryview)):
                raise TypeError(f"record is of the type {type(record).__name__}, and may be bytes")
            record = bytes(record)
        if self._closing is not None:
            self.memory[game] = self._closing.load(game, record)
            return
        loaded = self._game()
        check(self._load(byref(loaded), record, len(record)))
        self._check_sides(loaded)
        self.memory[game] = loaded

    def _check_sides(self, loaded: Any) -> None:
        """Refuses a struct of other sides, or with another number of seats."""
        found = loaded.head.settings
        if (found.width, found.height, found.seats) != (self.width, self.height, self.seats):
            raise ValueError(
                f"record has a board of {found.width} by {found.height} cells with {found.seats} "
                f"snakes, and may have one of {self.width} by {self.height} with {self.seats}"
            )

    def food(self, game: int) -> list[tuple[int, int]]:
        """The cells with food, the oldest first."""
        game = position("game", game, self.count)
        into = (Place * 625)()
        call = getattr(library, self._prefix + "food")
        return self._places(into, call(byref(self.memory[game]), into, 625))

    def body(self, game: int, seat: int) -> list[tuple[int, int]]:
        """The parts of a snake, its head first."""
        game, seat = position("game", game, self.count), position("seat", seat, self.seats)
        into = (Place * 629)()
        call = getattr(library, self._prefix + "body")
        return self._places(into, call(byref(self.memory[game]), seat, into, 629))

    @staticmethod
    def _places(into: Any, count: int) -> list[tuple[int, int]]:
        return [(place.x, place.y) for place in into[:count]]
