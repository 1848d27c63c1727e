"""Drawn games for tests/library: how they are drawn, written to a file for the programs in C and
Rust, played by Python, and compared with what `arena serve` says of them."""

import ctypes
import json
import random
import struct
import subprocess
from array import array
from dataclasses import dataclass, field

from arena_rules import Games, records
from arena_rules.library import CAUSES, MODES, STRUCTS, LargeGame, SmallGame, library

STEPS = {0: 32, 1: -32, 2: -1, 3: 1}
DIRECTIONS = ("up", "down", "left", "right")
WORDS = (2, 2, 2, 2, 0, 1, 3, 8, 32)
TURNS = (10, 20, 20, 20, 40, 130)  # the most of a game
GAMES_A_FILE = 250
QUOTA = 1_835_007


@dataclass
class Turn:
    moves: bytes
    words: list
    record: bytes  # after the turn
    hazards: list | None = None
    food: list | None = None


@dataclass
class Game:
    setup: dict  # the arguments of records.start
    first: bytes  # the record of turn 0
    words: int  # for each turn
    most: int  # turns
    turns: list = field(default_factory=list)


def draw_setup(rng):
    """The arguments of `records.start`, without hazards."""
    mode = rng.choice(list(MODES))
    width, height = rng.randint(3, 25), rng.randint(3, 25)
    if rng.random() < 0.6:
        width, height = min(width, 11), min(height, 11)
    cells = [(x, y) for x in range(width) for y in range(height)]
    return {
        "mode": mode,
        "width": width,
        "height": height,
        "starts": rng.sample(cells, rng.randint(1, 8)),
        "food": rng.sample(cells, rng.choice([0, 0, 1, 2, 5, 9])),
        "min_food": rng.choice([0, 1, 1, 2, 4, 40, 255]),
        "food_chance": rng.choice([0, 15, 15, 50, 100]),
    }


def free_steps(rng, game, seat):
    """The directions that lead to a cell without wall or body; those to food twice."""
    settings, row = game.head.settings, len(game.bodies) // 8
    cell = game.bodies[row * seat]
    found = []
    for direction, step in STEPS.items():
        y, x = divmod(cell + step, 32)
        if settings.mode == MODES["wrapped"]:
            x, y = (x - 1) % settings.width + 1, (y - 1) % settings.height + 1
        if 1 <= x <= settings.width and 1 <= y <= settings.height:
            count = game.plane[32 * y + x]
            if count & 127 == 0:
                found += [direction] * (3 if count else 1)
    return found


def draw_moves(rng, game):
    """Mostly moves that keep a snake alive; some straight on, some drawn."""
    moves = []
    for seat in range(game.head.settings.seats):
        steps = free_steps(rng, game, seat) if game.head.seats[seat].cause == 0 else []
        kind = rng.random()
        if kind < 0.08 or not steps:
            moves.append(rng.choice([0, 1, 2, 3, 4, 4, 255]))
        else:
            moves.append(rng.choice(steps))
    return bytes(moves)


def draw_words(rng, count):
    return [
        rng.choice([rng.getrandbits(32), rng.randrange(200), 2**32 - 1]) for _ in range(count)
    ]


def one_game(setup):
    """The setup's game in memory, after its start."""
    games = Games(
        1,
        width=setup["width"],
        height=setup["height"],
        seats=len(setup["starts"]),
        mode=setup["mode"],
        min_food=setup["min_food"],
        food_chance=setup["food_chance"],
    )
    started = games.start(flat(setup["starts"]), flat(setup["food"]))
    assert started == 1, setup
    return games


def flat(cells):
    return bytes(number for cell in cells for number in cell)


def words_of(words):
    """Words as bytes, for a file."""
    return struct.pack(f"<{len(words)}I", *words)


def starve(setup):
    """A setup in which no food appears, and a snake alone lasts until it starves."""
    more = {"mode": "solo", "food": [], "min_food": 0, "food_chance": 0, "width": 20}
    return setup | more | {"starts": setup["starts"][:2]}


def draw(count, seed):
    """Games without hazards, played by the calls on games."""
    drawn = []
    for number in range(count):
        rng = random.Random(f"{seed} {number}")
        setup, most = draw_setup(rng), rng.choice(TURNS)
        if number % 40 == 0:
            setup, most = starve(setup), 130
        games = one_game(setup)
        game = Game(setup, games.record(0), rng.choice(WORDS), most)
        while not games.is_over(0) and len(game.turns) < game.most:
            moves, words = draw_moves(rng, games.memory[0]), draw_words(rng, game.words)
            games.step(moves, array("I", words))
            game.turns.append(Turn(moves, words, games.record(0)))
        drawn.append(game)
    return drawn


def draw_hazardous(count, seed):
    """Games with hazards and with food from the map, played by the calls on records."""
    drawn = []
    for number in range(count):
        rng = random.Random(f"hazards {seed} {number}")
        setup = draw_setup(rng)
        cells = [(x, y) for x in range(setup["width"]) for y in range(setup["height"])]
        setup["hazards"] = rng.choices(cells, k=rng.choice([0, 3, 12]))
        setup["hazard_damage"] = rng.choice([0, 14, 14, 60, 100])
        record = records.start(**setup)
        game = Game(setup, record, rng.choice(WORDS), rng.choice(TURNS))
        while not records.is_over(record) and len(game.turns) < game.most:
            moves = bytes(rng.choice([0, 1, 2, 3, 4]) for _ in setup["starts"])
            words = draw_words(rng, game.words)
            hazards = rng.choices(cells, k=5) if rng.random() < 0.3 else None
            food = rng.choices(cells, k=3) if rng.random() < 0.3 else None
            record = records.turn(record, moves, words, hazards=hazards, food=food)
            game.turns.append(Turn(moves, words, record, hazards, food))
        drawn.append(game)
    return drawn


def write(games, path):
    """Writes the games for tests/c/replay.c and the example `replay` of the Rust crate."""
    with open(path, "wb") as file:
        file.write(struct.pack("<I", len(games)))
        for game in games:
            setup = game.setup
            head = (MODES[setup["mode"]], setup["width"], setup["height"], len(setup["starts"]))
            head += (setup["min_food"], setup["food_chance"], len(setup["food"]), game.words)
            file.write(bytes(head) + flat(setup["starts"]) + flat(setup["food"]))
            file.write(struct.pack("<II", len(game.turns), len(game.first)) + game.first)
            for turn in game.turns:
                file.write(turn.moves + words_of(turn.words))
                file.write(struct.pack("<I", len(turn.record)) + turn.record)


def replay(games):
    """Plays the games by the calls on records and, beginning in the middle, by those on games."""
    turns = 0
    for game in games:
        record = records.start(**game.setup)
        assert record == game.first, game.setup
        loaded = one_game(game.setup)
        for number, turn in enumerate(game.turns):
            if number == len(game.turns) // 2:
                loaded.load(0, record)
            assert not records.is_over(record)
            record = records.turn(record, turn.moves, turn.words)
            loaded.step(turn.moves, array("I", turn.words))
            assert record == turn.record, (game.setup, number)
            assert loaded.record(0) == turn.record, (game.setup, number)
            turns += 1
        assert records.is_legal(record)
        assert len(game.turns) == game.most or records.is_over(record)
    return f"{len(games)} games, {turns} turns agree\n"


def cells_of(cells):
    return [{"x": x, "y": y} for x, y in cells]


def line_of(name, word, **members):
    return json.dumps({"game": name, "do": word, **members}, separators=(",", ":"))


def move_line(name, turn):
    moves = {str(seat): DIRECTIONS[byte] for seat, byte in enumerate(turn.moves) if byte < 4}
    more = {}
    if turn.hazards is not None:
        more["hazards"] = cells_of(turn.hazards)
    if turn.food is not None:
        more["food"] = cells_of(turn.food)
    return line_of(name, "move", moves=moves, words=turn.words, **more)


def command_file(games):
    """The text of a command file in which the games are played one after the other."""
    lines = ['{"games":[],"version":5}']
    for number, game in enumerate(games):
        name, setup = f"g{number}", dict(game.setup)
        starts = setup.pop("starts")
        setup["snakes"] = [{"id": str(seat), "x": x, "y": y} for seat, (x, y) in enumerate(starts)]
        setup["food"] = cells_of(setup["food"])
        if "hazards" in setup:
            setup["hazards"] = cells_of(setup["hazards"])
        lines += [line_of(name, "admit", quota=QUOTA), line_of(name, "new", **setup)]
        lines += [move_line(name, turn) for turn in game.turns]
        lines.append(line_of(name, "leave"))
    return "\n".join(lines) + "\n"


class Reader:
    """Reads a record, as docs/FORMATS.md has it."""

    def __init__(self, record):
        self.record, self.at = record, 0

    def byte(self):
        self.at += 1
        return self.record[self.at - 1]

    def two_bytes(self):
        return 256 * self.byte() + self.byte()

    def cells(self, count, first=0):
        return [{"x": self.byte() - first, "y": self.byte() - first} for _ in range(count)]

    def snake(self):
        ident = bytes(self.byte() for _ in range(self.byte())).decode()
        health, cause, killer, out = self.byte(), self.byte(), self.byte(), self.two_bytes()
        body = self.cells(self.two_bytes(), 1)
        by = str(killer - 1) if killer else None
        return {
            "body": body,
            "by": by,
            "cause": CAUSES[cause],
            "health": health,
            "id": ident,
            "out": out or None,
        }


def board_of(record, hazardous):
    """The board of a record, as a transcript has it."""
    read = Reader(record)
    version, mode = read.byte(), list(MODES)[read.byte()]
    board = {"mode": mode, "width": read.byte(), "height": read.byte(), "turn": read.two_bytes()}
    board |= {"min_food": read.byte(), "food_chance": read.byte()}
    snakes, foods = read.byte(), read.two_bytes()
    board["food"] = read.cells(foods)
    if hazardous:
        assert version == 3
        board["hazard_damage"] = read.byte()
        board["hazards"] = read.cells(read.two_bytes())
    board["snakes"] = [read.snake() for _ in range(snakes)]
    assert read.at == len(record)
    living = sum(snake["cause"] is None for snake in board["snakes"])
    board["over"] = living <= (0 if mode == "solo" else 1)
    return board


def differences(games, program):
    """The places at which a board of the games is not that of `arena serve`."""
    found = []
    for low in range(0, len(games), GAMES_A_FILE):
        some = games[low : low + GAMES_A_FILE]
        text = command_file(some).encode()
        ran = subprocess.run([program, "serve", "-"], input=text, capture_output=True, check=True)
        boards = iter(json.loads(line) for line in ran.stdout.splitlines())
        for number, game in enumerate(some):
            records_ = [game.first, *(turn.record for turn in game.turns)]
            for record in records_:
                said = next(boards)
                if "board" not in said or is_other(said["board"], record, "hazards" in game.setup):
                    found.append((low + number, said))
            next(boards)  # the final line
        assert next(boards, None) is None
    return found[:3]


def is_other(board, record, hazardous):
    wanted = board_of(record, hazardous)
    if not hazardous:
        board = {key: value for key, value in board.items() if "hazard" not in key}
    return board != wanted


def numbered_seat(seat):
    first = 100 + 10 * seat
    return [256 * first, 256 * first + 1, first + 2, first + 3, first + 4, first + 5]


def fields(struct_):
    """The values of the fields, in their order."""
    return [getattr(struct_, name) for name, *_ in struct_._fields_]


def check_layout():
    """Compares the sizes of the structs, and where the fields of the games lie."""
    small, large, sizes = SmallGame(), LargeGame(), (ctypes.c_size_t * len(STRUCTS))()
    library.arena_layout(ctypes.byref(small), ctypes.byref(large), sizes, len(STRUCTS))
    assert list(sizes) == [ctypes.sizeof(struct_) for struct_ in STRUCTS]
    for game in (small, large):
        head = game.head
        assert fields(head.settings) == [1, 2, 3, 4, 5, 6]
        assert fields(head)[1:-1] == [1793, 2050, 9, 10]
        for seat in range(8):
            assert fields(head.seats[seat]) == numbered_seat(seat)
        assert list(game.food) == [10_000 + at for at in range(len(game.food))]
        assert list(game.plane) == [at % 251 for at in range(len(game.plane))]
        assert list(game.bodies) == [20_000 + at for at in range(len(game.bodies))]
