"""Tests of what the Python calls take, and of what they refuse, by name; for tests/library."""
import copy
import pickle
import subprocess
import sys
from array import array

import pytest
from program import ROOT

pytestmark = [pytest.mark.slow, pytest.mark.usefixtures("library")]
numpy = pytest.importorskip("numpy")
STARTS = [(1, 5), (9, 5)]
FIRST = [[(2, 5), (1, 5), (1, 5)], [(8, 5), (9, 5), (9, 5)]]  # after right, left


@pytest.fixture
def records(rules):
    from arena_rules import records

    return records


def started(rules, count=1, **settings):
    games = rules.Games(count, **{"seats": 2, **settings})
    assert games.start(numpy.tile(numpy.array(STARTS, "u1"), (count, 1, 1))) == count
    return games


def bodies(games):
    return [games.body(game, seat) for game in range(games.count) for seat in range(games.seats)]


class TestConverted:
    """What no number is changed by is taken, whatever its type."""

    @pytest.mark.parametrize("dtype", ["u1", "i1", "i2", "i4", "i8", "u2", "u8", ">i4"])
    def test_moves_of_each_type(self, rules, dtype):
        games = started(rules, 2)
        games.step(numpy.array([[3, 2], [0, 1]], dtype))
        second = [[(1, 6), (1, 5), (1, 5)], [(9, 4), (9, 5), (9, 5)]]
        assert bodies(games) == FIRST + second

    @pytest.mark.parametrize(
        "moves",
        [
            [3, 2],
            [[3, 2]],
            (3, 2),
            b"\3\2",
            bytearray(b"\3\2"),
            memoryview(b"\0\0\3\2")[2:],
            memoryview(b"\3\0\2\0")[::2],
            array("B", [3, 2]),
            array("l", [3, 2]),
            numpy.array([[3, 9, 2, 9]])[:, ::2],
        ],
    )
    def test_moves_of_each_kind_of_list(self, rules, moves):
        games = started(rules)
        games.step(moves)
        assert bodies(games) == FIRST

    @pytest.mark.parametrize("dtype", ["u4", "i8", "u8"])
    def test_words_of_each_type(self, rules, dtype):
        games = started(rules, 500)
        words = numpy.random.default_rng(1).integers(0, 1 << 32, (500, 2), "u8")
        games.step(numpy.zeros((500, 2), "u1"), words.astype(dtype))
        assert {len(games.food(game)) for game in range(500)} == {1}
        assert len({games.food(game)[0] for game in range(500)}) > 90

    def test_cells_of_each_kind(self, rules):
        wanted = bodies(started(rules))
        for starts in (STARTS, numpy.array([STARTS]), numpy.array(STARTS), b"\1\5\x09\5"):
            games = rules.Games(1, seats=2)
            assert games.start(starts, [(5, 5)]) == 1
            assert (bodies(games), games.food(0)) == (wanted, [(5, 5)])

    def test_marks(self, rules):
        games = started(rules, 3)
        games.step([3, 2] * 3)
        assert games.start(STARTS * 3, which=numpy.array([True, False, True])) == 2
        assert list(games.turns) == [0, 1, 0]

    def test_lists_of_a_record(self, records):
        record = records.start(numpy.array(STARTS), food=[(5, 5)])
        assert record == records.start(STARTS, food=numpy.array([(5, 5)], "i8"))
        wanted = records.turn(record, b"\3\2", array("I", [1, 2]))
        for moves in ([3, 2], numpy.array([3, 2]), (3, 2), bytearray(b"\3\2")):
            for words in ([1, 2], numpy.array([1, 2]), (1, 2)):
                assert records.turn(record, moves, words) == wanted
        assert records.turn(bytearray(record), [3, 2], [1, 2]) == wanted


def refused(kind, words, call, *given, **more):
    """Checks that a call is refused by an error of this kind whose text has these words."""
    with pytest.raises(kind) as caught:
        call(*given, **more)
    assert type(caught.value) is kind
    for word in words.split(" | "):
        assert word in str(caught.value), str(caught.value)


class TestRefused:
    """What would change numbers, or write elsewhere, is an error that names the argument."""

    @pytest.mark.parametrize("dtype", ["f4", "f8", "?", "c8", "U1", "O"])
    def test_moves_of_other_types(self, rules, dtype):
        games = started(rules)
        refused(TypeError, "moves is of | from 0 to 255", games.step, numpy.array([3, 2], dtype))
        refused(TypeError, "moves", games.step, "up")
        refused(TypeError, "moves", games.step, None)
        refused(TypeError, "moves", games.step, [1.9, 2.0])
        refused(TypeError, "moves", games.step, [True, False])
        assert games.turns[0] == 0

    def test_numbers_out_of_range(self, rules):
        games = started(rules)
        refused(ValueError, "moves has the number 256 | 0 to 255", games.step, [3, 256])
        refused(ValueError, "moves has the number -1", games.step, numpy.array([3, -1]))
        refused(ValueError, "words has the number -1", games.step, [3, 2], [-1, 2])
        refused(ValueError, "words has the number 4294967296", games.step, [3, 2], [1 << 32])
        refused(ValueError, "starts has the number 256", games.start, [(1, 256), (2, 2)])
        assert games.turns[0] == 0

    def test_shapes(self, rules):
        games = started(rules, 2)
        for moves in ([3, 2], [3] * 5, numpy.zeros((4, 1), int), numpy.zeros((2, 3), int), 3):
            refused(ValueError, "moves has the shape | (2, 2)", games.step, moves)
        refused(ValueError, "words has 3 numbers", games.step, [0] * 4, [1, 2, 3])
        refused(ValueError, "starts has the shape", games.start, [(1, 1), (2, 2)])
        refused(ValueError, "which has the shape (1,)", games.start, STARTS * 2, None, b"\1")
        refused(ValueError, "food has 3 numbers", games.start, STARTS * 2, b"\1\2\3")
        refused(ValueError, "moves", games.step, [[3, 2], [1]])

    def test_words_are_not_bytes(self, rules):
        games = started(rules)
        refused(TypeError, "words is bytes of single bytes", games.step, [3, 2], b"\0" * 8)
        refused(TypeError, "words is of the type float", games.step, [3, 2], [1.0, 2.0])

    def test_planes_are_written_where_they_may(self, rules):
        games = started(rules)
        frozen = bytes(3 * 121)
        refused(ValueError, "into is read-only", games.planes, frozen)
        assert frozen == bytes(3 * 121)
        fixed = numpy.zeros((3, 11, 11), "u1")
        fixed.flags.writeable = False
        refused(ValueError, "into is read-only", games.planes, fixed)
        assert not fixed.any()
        refused(TypeError, "into has items of the format 'l'", games.planes, numpy.zeros(363, int))
        apart = numpy.zeros((3, 11, 22), "u1")[:, :, ::2]
        refused(ValueError, "into is not contiguous", games.planes, apart)
        refused(ValueError, "into has the shape (362,)", games.planes, bytearray(362))
        refused(TypeError, "into is of the type list", games.planes, [0] * 363)
        refused(TypeError, "into", games.planes, games.memory)
        before = bytes(games.memory)
        own = games.states.view("u1")[:363]
        refused(ValueError, "into is memory of the games", games.planes, own)
        assert bytes(games.memory) == before
        planes = numpy.zeros((1, 3, 11, 11), "u1")
        games.planes(planes)
        assert planes[0, 1, 5, 1] == 3 and planes.sum() == 6

    @pytest.mark.parametrize(
        "settings, words",
        [
            ({"width": 267}, "width is 267, and may be 3 to 25"),
            ({"width": 2}, "width is 2"),
            ({"height": 26}, "height is 26"),
            ({"seats": 0}, "seats is 0, and may be 1 to 8"),
            ({"seats": 9}, "seats is 9"),
            ({"seats": 257}, "seats is 257"),
            ({"food_chance": 300}, "food_chance is 300, and may be 0 to 100"),
            ({"min_food": -1}, "min_food is -1"),
            ({"mode": "royale"}, "mode is 'royale', and may be standard"),
            ({"threads": 0}, "threads is 0"),
        ],
    )
    def test_settings(self, rules, settings, words):
        refused(ValueError, words, rules.Games, 1, **settings)

    def test_counts(self, rules):
        refused(ValueError, "count is -1", rules.Games, -1)
        refused(TypeError, "count is 1.0", rules.Games, 1.0)
        refused(TypeError, "width is True", rules.Games, 1, width=True)

    def test_indices(self, rules):
        games = started(rules, 3)
        for call in (games.is_over, games.record, games.food):
            refused(IndexError, "game is -1, and may be 0 to 2", call, -1)
            refused(IndexError, "game is 3", call, 3)
            refused(TypeError, "game is 1.0", call, 1.0)
        refused(IndexError, "seat is 5, and may be 0 to 1", games.body, 0, 5)

    def test_boards_against_the_games(self, rules, records):
        games = started(rules)
        before = bytes(games.memory)
        three = records.start([(1, 1), (3, 3), (5, 5)])
        refused(ValueError, "record has a board of 11 by 11 cells with 3", games.load, 0, three)
        narrow = records.start([(1, 1), (3, 3)], width=7, height=7)
        refused(ValueError, "record has a board of 7 by 7", games.load, 0, narrow)
        refused(TypeError, "record is of the type str", games.load, 0, "x")
        for record in (b"", three[:-1]):
            with pytest.raises(rules.ArenaError):
                games.load(0, record)
        with pytest.raises(rules.ArenaError):
            games.load(0, records.start(STARTS, hazards=[(1, 1)] * 2600))
        assert bytes(games.memory) == before

    def test_calls_on_records(self, records):
        record = records.start(STARTS)
        refused(TypeError, "moves", records.turn, record, [0.5, 1])
        refused(TypeError, "moves", records.turn, record, [True, False])
        refused(TypeError, "moves", records.turn, record, numpy.array([1.0, 2.0]))
        refused(ValueError, "moves has the number 256", records.turn, record, [256, 1])
        refused(ValueError, "words has the number -1", records.turn, record, [0, 1], [-1])
        refused(ValueError, "words has the number", records.turn, record, [0, 1], [1 << 32])
        refused(TypeError, "words is bytes", records.turn, record, [0, 1], b"\0" * 8)
        refused(TypeError, "record is of the type str", records.turn, "x", [0, 1])
        refused(ValueError, "width is 267", records.start, STARTS, width=267)
        refused(ValueError, "food_chance is 300", records.start, STARTS, food_chance=300)
        refused(ValueError, "min_food is -1", records.start, STARTS, min_food=-1)
        refused(ValueError, "mode is 'royale'", records.start, STARTS, mode="royale")
        refused(ValueError, "starts has the number 300", records.start, [(1, 300)])
        refused(ValueError, "starts has the cell (1, 2, 3)", records.start, [(1, 2, 3)])
        refused(
            ValueError, "hazards has the number -1", records.turn, record, [], hazards=[(-1, 0)]
        )


class TestGames:
    """Views, copies and threads."""

    def test_named_views(self, rules):
        games = started(rules, 2)
        games.step([[3, 2], [2, 2]])
        games.step([[0, 1], [2, 2]])
        assert games.heads.tolist() == [[[2, 6], [8, 4]], [[-1, 5], [7, 5]]]
        assert games.alive.tolist() == [[True, True], [False, True]]
        assert games.lengths.tolist() == [[3, 3], [3, 3]]
        assert games.health.tolist() == [[98, 98], [98, 98]]
        assert games.over.tolist() == [False, True] and games.turns.tolist() == [2, 2]
        assert games.causes.tolist() == [[0, 0], [2, 0]]
        games.health[0, 0] = 5
        assert games.memory[0].head.seats[0].health == 5

    def test_free_steps(self, rules):
        games = rules.Games(2, seats=1, mode="solo", width=5, height=5)
        games.start([[(0, 0)], [(2, 2)]])
        games.step([0, 3])
        wanted = [[[True, False, False, True]], [[True, True, False, True]]]
        assert games.free_steps().tolist() == wanted
        wrapped = rules.Games(1, seats=2, mode="wrapped", width=3, height=3)
        wrapped.start([(0, 0), (1, 2)])
        wrapped.step([2, 0])
        assert wrapped.heads.tolist() == [[[2, 0], [1, 0]]]
        wanted = [[[True, True, False, False], [True, False, False, False]]]
        assert wrapped.free_steps().tolist() == wanted

    def test_copies(self, rules):
        for threads in (1, 2):
            games = started(rules, 3, threads=threads)
            games.step([3, 2] * 3)
            for twin in (games.copy(), copy.deepcopy(games), pickle.loads(pickle.dumps(games))):
                assert bytes(twin.memory) == bytes(games.memory) and len(twin) == 3
                twin.step([0, 0] * 3)
                assert twin.turns[0] == 2 and games.turns[0] == 1
                twin.close()
            games.close()
            games.step([0, 0] * 3)
            assert games.turns.tolist() == [2, 2, 2]
        with rules.Games(1, threads=2) as held:
            assert repr(held) == "Games(1, width=11, height=11, seats=4, mode='standard')"

    def test_errors_can_be_copied(self, rules):
        error = pickle.loads(pickle.dumps(rules.ArenaError(1, "why")))
        assert (error.status, str(error)) == (1, "not the record of a legal board: why")

    def test_without_numpy(self, library, tmp_path):
        """The same calls where numpy is missing; a module of its name stands in its way."""
        (tmp_path / "numpy.py").write_text("raise ImportError")
        script = tmp_path / "script.py"
        script.write_text(WITHOUT_NUMPY)
        path = f"{tmp_path}:{ROOT}/bindings/python"
        ran = subprocess.run(
            [sys.executable, script], capture_output=True, text=True, env={"PYTHONPATH": path}
        )
        assert (ran.returncode, ran.stdout) == (0, "all\n"), ran.stderr


WITHOUT_NUMPY = """
from array import array
from arena_rules import Games, records

games = Games(1, seats=2, width=25, height=25)
assert games.start([(1, 5), (9, 5)], [(5, 5)]) == 1 and games.states is None
four = b"\\4\\4"
for moves in ([4, 4], four, bytearray(four), array("B", four), memoryview(b"x" + four)[1:]):
    games.step(moves, [1, 2])
    games.step(moves, array("I", [1, 2]))
assert games.memory[0].head.turn == 10
planes = bytearray(1875)
games.planes(planes)
assert sum(planes) > 0
record = records.turn(records.start([(1, 5), (9, 5)], width=25, height=25), [3, 2], [1, 2])
games.load(0, record)
assert games.record(0) == record
for kind, call in (
    (TypeError, lambda: games.step([1.5, 2])),
    (TypeError, lambda: games.step([True, 2])),
    (TypeError, lambda: games.step(array("l", [3, 2]))),
    (TypeError, lambda: games.step([3, 2], bytes(8))),
    (ValueError, lambda: games.step([3, 256])),
    (ValueError, lambda: games.step([3, 2, 1])),
    (ValueError, lambda: games.step([3, 2], [-1])),
    (ValueError, lambda: games.planes(bytes(1875))),
    (ValueError, lambda: records.turn(record, [300, 1])),
    (ValueError, lambda: records.start([(1, 5), (9, -5)])),
):
    try:
        call()
    except kind:
        continue
    raise AssertionError(kind)
print("all")
"""


def request(**changes):
    """A request of the official API with one change of a member, by its path."""
    body = [{"x": 1, "y": 2}, {"x": 1, "y": 1}, {"x": 1, "y": 1}]
    snake = {"id": "gs_1", "health": 54, "body": body, "name": "one", "length": 3}
    settings = {"foodSpawnChance": 15, "minimumFood": 1, "hazardDamagePerTurn": 14}
    ruleset = {"name": "standard", "version": "v1.0.13", "settings": settings}
    board = {
        "height": 11,
        "width": 11,
        "food": [{"x": 5, "y": 5}],
        "hazards": [],
        "snakes": [snake],
    }
    state = {"game": {"id": "g", "ruleset": ruleset}, "turn": 14, "board": board, "you": snake}
    for path, value in changes.items():
        *names, last = path.split("_")
        at = state
        for name in names:
            at = at[int(name)] if name.isdigit() else at[name]
        at[int(last) if last.isdigit() else last] = value
    return state


class TestRequests:
    """Records of the requests of the official API."""

    FIRST = bytes([1, 0, 11, 11, 0, 14, 1, 15, 1, 0, 1, 5, 5, 4]) + b"gs_1"
    LAST = bytes([54, 0, 0, 0, 0, 0, 3, 2, 3, 2, 2, 2, 2])

    def test_the_record_of_a_request(self, records):
        assert records.from_state(request()) == self.FIRST + self.LAST

    @pytest.mark.parametrize(
        "name, mode",
        [("standard", 0), ("royale", 0), ("solo", 1), ("constrictor", 2), ("wrapped", 3)],
    )
    def test_each_ruleset(self, records, name, mode):
        food = [] if name == "constrictor" else [{"x": 5, "y": 5}]
        record = records.from_state(request(game_ruleset_name=name, board_food=food))
        assert list(record[:2]) == [2 if name == "wrapped" else 1, mode]
        assert records.is_legal(record)

    def test_royale(self, records):
        hazards = [{"x": 0, "y": 0}, {"x": 0, "y": 1}]
        record = records.from_state(request(game_ruleset_name="royale", board_hazards=hazards))
        assert record[:2] == b"\3\0" and record[13:20] == bytes([14, 0, 2, 0, 0, 0, 1])
        after = records.turn(record, [2], hazards=[(0, 2)])
        assert after[13:18] == bytes([14, 0, 1, 0, 2])
        assert records.turn(after, [0], hazards=[])[-11] < 54

    @pytest.mark.parametrize(
        "path, value, why",
        [
            ("game_ruleset_name", "squad", "the ruleset is 'squad': snakes of a squad"),
            ("game_ruleset_name", "mine", "the ruleset is 'mine': the known ones are standard"),
            ("board_snakes", [], "the number of snakes is 0"),
            ("board_width", 26, "the width of the board is 26, and may be 3 to 25"),
            ("turn", 10_001, "the turn is 10001"),
            ("board_snakes_0_health", 0, "the health of snake 'gs_1' is 0, and may be 1 to 100"),
            ("board_snakes_0_id", "", "the length in bytes of the id"),
            ("board_snakes_0_body", [{"x": 1, "y": 1}], "the number of parts of snake 'gs_1' is 1"),
            ("board_snakes_0_body_0", {"x": -1, "y": 1}, "x of a cell of the body of snake 'gs_1'"),
            ("board_food_0", {"x": 1, "y": 11}, "y of a cell of food is 11"),
            ("board_food", [{"x": 1, "y": 9}] * 2, "two food are on one cell"),
            ("board_hazards", [{"x": 99, "y": 9}], "x of a cell of hazards is 99"),
            ("game_ruleset_settings_minimumFood", 256, "minimumFood is 256"),
            ("game_ruleset_settings_foodSpawnChance", 15.5, "foodSpawnChance is 15.5"),
            ("board", {}, "the request has no member"),
            ("board_snakes", None, "the request is not of the official API"),
        ],
    )
    def test_what_is_refused_and_why(self, rules, records, path, value, why):
        with pytest.raises(rules.ArenaError) as caught:
            records.from_state(request(**{path: value}))
        assert caught.value.status == 1 and why in str(caught.value)

    def test_healing_pools(self, rules, records):
        hazards = {"board_hazards": [{"x": 0, "y": 0}]}
        change = {"game_ruleset_settings_hazardDamagePerTurn": -5, **hazards}
        with pytest.raises(rules.ArenaError, match="hazardDamagePerTurn is -5"):
            records.from_state(request(**change))
        with pytest.raises(rules.ArenaError, match="constrictor has no food"):
            records.from_state(request(game_ruleset_name="constrictor"))
