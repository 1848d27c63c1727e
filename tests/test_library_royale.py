"""Tests of games on the map royale, against the ladder's map, the calls on records and
`arena serve`; for tests/library."""
import copy
import pickle
import sys

import pytest
from program import ROOT

pytestmark = [pytest.mark.slow, pytest.mark.usefixtures("library")]
np = pytest.importorskip("numpy")
SEED = 20_261_129
HAZARD = 6  # the cause, as arena.h has it


@pytest.fixture
def ladder(library):
    """The map of the ladder: `ladder(games, number)` is the ground of a game."""
    sys.path.append(str(ROOT / "ladder/src"))
    from arena_ladder.game.maps import Ground, HazardMap

    def ground(games, number):
        own = games.map
        hazards = HazardMap(own.hazard_damage, own.shrink_every)
        return Ground(games.width, games.height, hazards, own.seed, games._closing.names[number])

    return ground


def plane_of(cells, games):
    """1 on each of these cells."""
    plane = np.zeros((games.height, games.width), "u1")
    for x, y in cells:
        plane[y, x] += 1
    return plane


def started(rules, count, **settings):
    """Games on the map, with drawn first boards."""
    from arena_rules.starts import layouts

    games = rules.Games(count, **settings)
    drawn = layouts(np.random.default_rng(3), games.width, games.height, games.seats, games.mode)
    starts, food = (it[:count] for it in drawn)
    assert games.start(starts, food) == count
    return games, starts.tolist(), food.tolist()


def careful(games, rng):
    """Mostly free steps, so that games last until much of the board has hazards."""
    steps = games.free_steps() + 0.01
    return (steps * rng.random(steps.shape)).argmax(axis=2)


class TestSettings:
    """What a map may be."""

    def test_left_out(self, rules):
        assert rules.Games(1).map is None and not rules.Games(2).hazards.any()
        assert rules.Games(1, map="royale").map == (25, 14, 0) == rules.Royale()
        assert "map=Royale(shrink_every=3" in repr(rules.Games(1, map=rules.Royale(3)))

    def test_refusals(self, rules):
        for given in ("snail_mode", None, 25, True):
            with pytest.raises(ValueError, match="map is .*, and may be 'standard', 'royale'"):
                rules.VectorEnv(1, map=given)
        for values, kind, words in (
            ((0,), ValueError, "shrink_every is 0, and may be 1 to 10000"),
            ((2.5,), TypeError, "shrink_every is 2.5"),
            ((25, 101), ValueError, "hazard_damage is 101, and may be 0 to 100"),
            ((25, 14, -1), ValueError, "seed is -1"),
        ):
            with pytest.raises(kind, match=words):
                rules.Games(1, map=rules.Royale(*values))

    def test_sides_are_the_ladders(self, rules, ladder):
        from arena_ladder.game.draws import sides_of

        for game in ("0", "17", "r0001-t003"):
            own = rules.Royale(seed=SEED)
            assert [own.side(game, it) for it in range(20)] == list(sides_of(SEED, game, 20))


class TestTurns:
    """The boards are those of the calls on records and of `arena serve`, with the ladder's map."""

    @pytest.mark.parametrize("mode", ["standard", "solo", "constrictor", "wrapped"])
    def test_each_turn(self, rules, ladder, mode, program):
        import library_games

        own = rules.Royale(shrink_every=3, hazard_damage=30, seed=SEED)
        settings = {"width": 9, "height": 8, "seats": 3, "mode": mode, "min_food": 2}
        games, starts, food = started(rules, 30, map=own, **settings)
        rng, drawn, causes = np.random.default_rng(1), [], set()
        for number in range(30):
            setup = {"mode": mode, "width": 9, "height": 8, "starts": starts[number]}
            setup |= {"food": food[number], "min_food": 2, "food_chance": 15}
            setup |= {"hazards": [], "hazard_damage": 30}
            drawn.append(library_games.Game(setup, games.record(number), 2, 60))
        for turn in range(40):
            was_over = games.over.copy()
            moves, words = careful(games, rng), rng.integers(0, 1 << 32, (30, 2))
            games.step(moves, words)
            self.play_again(games, drawn, ladder, turn, (was_over, moves, words))
            self.check_shown(games, drawn, library_games.board_of)
            causes |= set(games.causes.ravel().tolist())
        assert (HAZARD in causes) == (mode != "constrictor")  # where snakes are fed in each turn
        assert library_games.differences(drawn, program) == []

    @staticmethod
    def play_again(games, drawn, ladder, turn, orders):
        """The same turn by `records.turn`, with the hazards of the ladder."""
        import library_games
        from arena_rules import records

        for number, game in enumerate(drawn):
            was_over, moves, words = (it[number] for it in orders)
            before = game.turns[-1].record if game.turns else game.first
            if was_over:
                assert games.record(number) == before
                continue
            hazards = ladder(games, number).hazards_after(turn)
            after = records.turn(before, moves.tolist(), words.tolist(), hazards=hazards)
            assert games.record(number) == after
            made = library_games.Turn(bytes(moves.tolist()), words.tolist(), after, hazards)
            game.turns.append(made)

    @staticmethod
    def check_shown(games, drawn, board_of):
        """The structs and the planes show what is in the records."""
        from arena_rules.library import CAUSES

        for number in range(len(drawn)):
            board = board_of(games.record(number), True)
            hazards = [(it["x"], it["y"]) for it in board["hazards"]]
            assert (games.hazards[number] == plane_of(hazards, games)).all()
            assert games.turns[number] == board["turn"] and games.over[number] == board["over"]
            assert games.food(number) == [(it["x"], it["y"]) for it in board["food"]]
            for seat, snake in enumerate(board["snakes"]):
                assert games.body(number, seat) == [(it["x"], it["y"]) for it in snake["body"]]
                assert games.health[number, seat] == snake["health"]
                shown = games.memory[number].head.seats[seat]
                assert CAUSES[shown.cause] == snake["cause"] and shown.out == (snake["out"] or 0)

    @pytest.mark.parametrize("sides, seats", [((25, 25), 8), ((3, 4), 2), ((12, 11), 1)])
    def test_sides(self, rules, sides, seats):
        """On boards of other sizes the records stay legal, and the hazards reach the last cell."""
        from arena_rules import records

        width, height = sides
        own = {"width": width, "height": height, "seats": seats, "mode": "solo", "min_food": 9}
        games, _, _ = started(rules, 10, map=rules.Royale(1, 0, SEED), **own)
        for _ in range(60):
            games.step(games.free_steps().argmax(axis=2), np.arange(320).reshape(10, 32))
        assert all(records.is_legal(games.record(it)) for it in range(10))
        assert games.hazards.sum(axis=(1, 2)).max() == width * height and games.turns.max() > 5

    def test_no_games(self, rules):
        games = rules.Games(0, map="royale")
        games.step([])
        assert games.start([]) == 0 and len(games.copy()) == 0

    def test_threads_and_copies(self, rules):
        own = rules.Royale(shrink_every=2, seed=SEED)
        one, _, _ = started(rules, 40, map=own)
        more, _, _ = started(rules, 40, map=own, threads=3)
        rng = np.random.default_rng(1)
        for turn in range(20):
            moves, words = careful(one, rng), rng.integers(0, 1 << 32, (40, 2))
            twins = [copy.deepcopy(one), pickle.loads(pickle.dumps(one))]
            for games in (one, more, *twins):
                games.step(moves, words)
            for games in (more, *twins):
                assert bytes(games.memory) == bytes(one.memory)
                assert all(games.record(it) == one.record(it) for it in range(40))
        more.close()
        assert one.hazards.any() and not one.hazards.flags.writeable

    def test_starts_that_do_not_fit(self, rules):
        games = rules.Games(3, seats=2, map="royale")
        starts = [[(1, 1), (2, 2)], [(1, 1), (1, 1)], [(1, 1), (11, 0)]]
        assert games.start(starts) == 1 and games.over.tolist() == [False, True, True]
        games.step(np.zeros((3, 2), int))
        assert games.turns.tolist() == [1, 0, 0] and games.record(1) == b""
        assert games.start(starts, which=[0, 0, 0]) == 0 and games.turns.tolist() == [1, 0, 0]


class TestLoads:
    """Records of other games, as of requests."""

    def test_damage(self, rules):
        """A head on a hazard and on no food loses the damage besides: docs/RULES.md."""
        from arena_rules import records

        games = rules.Games(1, seats=2, width=7, height=7, map="royale")
        column = [(0, y) for y in range(7)]
        given = {"width": 7, "height": 7, "food": [(6, 1)], "hazards": column, "hazard_damage": 20}
        games.load(0, records.start([(1, 1), (5, 1)], **given))
        assert games.hazards[0, :, 0].all() and games.hazards.sum() == 7
        games.step([2, 3])
        assert games.health.tolist() == [[79, 100]] and games.heads.tolist() == [[[0, 1], [6, 1]]]

    def test_goes_on_as_the_map(self, rules, ladder):
        from arena_rules import records

        games = rules.Games(1, seats=1, mode="solo", map=rules.Royale(5, seed=SEED))
        games.load(0, records.start([(5, 5)], mode="solo"))
        assert games.record(0)[:2] == b"\3\1" and not games.hazards.any()
        for turn in range(1, 30):
            games.step([[3, 0, 2, 1][turn % 4]])
            outside = ladder(games, 0).outside(turn // 5)
            assert (games.hazards[0] == plane_of(outside, games)).all()
        assert games.hazards.sum() > 40 and not games.over[0]

    def test_refusals(self, rules):
        from arena_rules import records

        games = rules.Games(1, seats=2, map="royale")
        games.load(0, records.start([(1, 1), (5, 5)]))
        before = games.record(0), bytes(games.memory)
        one, two = [(1, 1), (5, 5)], [(0, y) for y in range(11)]
        for record, why in (
            (b"\0", "not the record of a legal board"),
            (records.start(one, hazards=[(4, 4)]), "all cells outside of some columns and rows"),
            (records.start(one, hazards=two * 2), "all cells outside"),
            (records.start(one, hazards=two[1:]), "all cells outside"),
        ):
            with pytest.raises(rules.ArenaError, match=why):
                games.load(0, record)
        with pytest.raises(ValueError, match="record has a board of 7 by 11"):
            games.load(0, records.start(one, width=7, hazards=two))
        assert (games.record(0), bytes(games.memory)) == before

    def test_without_a_map_hazards_are_refused_by_name(self, rules):
        from arena_rules import records

        with pytest.raises(rules.ArenaError, match="a board with hazards") as caught:
            rules.Games(1, seats=1).load(0, records.start([(1, 1)], hazards=[]))
        assert caught.value.status == 6


class TestEnvironments:
    """The same calls as on the standard map, with one plane more."""

    @pytest.mark.parametrize("name", ["VectorEnv", "SeatEnv"])
    def test_the_plane_and_the_games(self, rules, ladder, name):
        make = getattr(rules, name)
        own = rules.Royale(shrink_every=3, hazard_damage=40)
        env = make(20, seed=SEED, seats=3, width=7, height=7, map=own)
        seen, _ = env.reset()
        assert env.single_observation_space.shape == (11, 7, 7) and not seen[:, -1].any()
        rng, closed = np.random.default_rng(1), 0
        for _ in range(60):
            moves = careful(env.games, rng)
            seen, _, _, _, infos = env.step(moves.reshape(env.action_space.shape))
            assert seen in env.observation_space
            planes = seen.reshape(20, -1, *seen.shape[1:])[:, :, -1]
            assert (planes == env.games.hazards[:, None]).all()
            for number in range(20):
                turns = int(env.games.turns[number])
                outside = ladder(env.games, number).outside(turns // 3)
                assert (env.games.hazards[number] == plane_of(outside, env.games)).all()
                closed += len(outside) > 0
        names = set(env.games._closing.names)
        assert closed > 200 and len(names) == 20 and max(map(int, names)) > 40

    def test_what_is_drawn(self, rules):
        """The map's seed comes first; the rest as without a map."""
        from arena_rules.starts import layouts

        env = rules.VectorEnv(6, seats=2, map="royale")
        env.reset(seed=11)
        rng = np.random.Generator(np.random.PCG64(11))
        assert env.games.map == (25, 14, rng.integers(0, 1 << 63))
        starts, _ = layouts(rng, 11, 11, 2, "standard")
        heads = starts[rng.integers(0, 1024, 4096)[:6]]
        assert (env.games.heads == heads).all()
        assert env.games._closing.names == ["0", "1", "2", "3", "4", "5"]

    def test_seeds(self, rules):
        one, other = (rules.VectorEnv(8, map=rules.Royale(2), width=7, height=7) for _ in "ab")
        first, _ = one.reset(seed=SEED)
        again, _ = other.reset(seed=SEED)
        rng = np.random.default_rng(1)
        for _ in range(20):
            assert np.array_equal(first, again)
            moves = careful(one.games, rng)
            first, again = one.step(moves)[0], other.step(moves)[0]
        assert first[:, -1].any() and one.reset(seed=SEED)[0][:, :-1].any()
        assert one.games._closing.names == [str(it) for it in range(8)]

    def test_few_planes(self, rules):
        few = rules.VectorEnv(2, seed=1, seats=2, map=rules.Royale(1), scalars=False)
        none = rules.VectorEnv(2, seed=1, seats=2, map=rules.Royale(1), observe=False)
        assert few.single_observation_space.shape == (4, 11, 11)
        for env in (few, none):
            env.reset()
            seen = env.step(env.games.free_steps().argmax(axis=2))[0]
            assert env.games.hazards.sum() == 22
            assert (seen[:, -1] == env.games.hazards * (env is few)).all()

    def test_agents(self, rules):
        env = rules.ParallelEnv(seed=1, seats=2, map=rules.Royale(1), render_mode="ansi")
        env.reset()
        seen, *_ = env.step({"snake_0": 0, "snake_1": 0})
        assert env.observation_space("snake_0").shape == (8, 11, 11) == env.state().shape
        for plane in (seen["snake_0"][-1], env.state()[-1]):
            assert (plane == env.games.hazards[0]).all() and plane.sum() == 11
        assert env.render().count("x") + env.render()[7:].count("*") >= 9

    def test_pictures(self, rules):
        env = rules.VectorEnv(1, seed=1, seats=2, map=rules.Royale(1), render_mode="rgb_array")
        env.reset()
        before = env.render()[0]
        env.step(env.games.free_steps().argmax(axis=2))
        assert (env.render()[0] == (96, 70, 40)).all(axis=2).any()
        assert not (before == (96, 70, 40)).all(axis=2).any()
