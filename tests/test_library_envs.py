"""Tests of the environments against the documented API of gymnasium 1.x and PettingZoo, attribute
by attribute, and against the games' own states; for tests/library.

Where the packages are installed the environments are subclasses of theirs, and these tests run
over them; else over the stand-ins of arena_rules/standins.py.
"""
import copy
import sys
import threading

import pytest
from program import ROOT

pytestmark = [pytest.mark.slow, pytest.mark.usefixtures("library")]
np = pytest.importorskip("numpy")
MODES = ("standard", "solo", "constrictor", "wrapped")


@pytest.fixture
def spaces(library):
    from arena_rules import spaces

    return spaces


@pytest.fixture(params=["VectorEnv", "SeatEnv"])
def make(request, rules):
    """One of the two classes."""
    return getattr(rules, request.param)


def same(one, other):
    """Whether two values of an answer are equal."""
    if isinstance(one, dict):
        return one.keys() == other.keys() and all(same(one[it], other[it]) for it in one)
    return np.array_equal(one, other)


class TestVectorApi:
    """What gymnasium.vector.VectorEnv documents, of both classes."""

    def test_attributes(self, make, spaces):
        env = make(3, seed=1, seats=2)
        assert isinstance(env, spaces.VectorBase)
        assert env.metadata["autoreset_mode"] is spaces.AutoresetMode.NEXT_STEP
        assert env.metadata["autoreset_mode"].value == "NextStep"
        assert env.metadata["render_modes"] == ["rgb_array", "ansi"]
        assert env.spec is None and env.render_mode is None and env.closed is False
        assert env.unwrapped is env
        assert env.num_envs == (3 if make.__name__ == "VectorEnv" else 6)
        assert str(env.num_envs) in repr(env)

    def test_spaces(self, make, spaces):
        env = make(3, seed=1, seats=2, width=7, height=8)
        single = env.single_observation_space, env.single_action_space
        both = env.observation_space, env.action_space
        for one, all_ in zip(single, both):
            assert spaces.batch_space(one, env.num_envs) == all_
        assert single[0].shape == (7, 8, 7) and single[0].dtype == np.uint8
        assert both[0].shape == (env.num_envs, 7, 8, 7)
        if make.__name__ == "VectorEnv":
            assert single[1] == spaces.MultiDiscrete([4, 4])
        else:
            assert single[1] == spaces.Discrete(4) and both[1].shape == (6,)

    def test_reset_and_step(self, make):
        env = make(5, seed=1, seats=3, width=7, height=7)
        answer = env.reset(seed=4, options=None)
        assert isinstance(answer, tuple) and len(answer) == 2 and isinstance(answer[1], dict)
        assert answer[0] in env.observation_space
        env.action_space.seed(1)
        for _ in range(40):
            seen, rewards, ended, cut, infos = env.step(env.action_space.sample())
            assert seen in env.observation_space
            wanted = (5, 3) if make.__name__ == "VectorEnv" else (15,)
            assert rewards.shape == wanted and rewards.dtype == np.float64
            for flags in (ended, cut):
                assert flags.shape == (env.num_envs,) and flags.dtype == bool
            for name in ("alive", "cause", "killer", "turn"):
                assert len(infos[name]) == env.num_envs
                assert infos["_" + name].shape == (env.num_envs,) and infos["_" + name].all()

    def test_what_was_returned_stays(self, make):
        env = make(4, seed=1, seats=2, width=7, height=7)
        kept = [env.reset()]
        copies = copy.deepcopy(kept)
        for _ in range(20):
            kept.append(env.step(env.action_space.sample()))
            copies.append(copy.deepcopy(kept[-1]))
        for one, other in zip(kept, copies):
            for given, wanted in zip(one, other):
                assert same(given, wanted)

    def test_memory_is_used_again_only_once_it_is_dropped(self, make):
        env = make(4, seed=1, seats=2)
        actions = np.zeros(env.action_space.shape, int)
        seen = env.reset()[0]
        part, before = seen[1:2, 1], seen[1:2, 1].copy()
        del seen
        places = set()
        for _ in range(12):
            seen = env.step(actions)[0]
            assert not np.shares_memory(part, seen) and np.array_equal(part, before)
            places.add(seen.__array_interface__["data"][0])
        assert len(places) <= 4

    def test_copy_false_writes_the_same_memory(self, make):
        env = make(4, seed=1, seats=2, copy=False)
        first = env.reset()[0]
        before = first.copy()
        second = env.step(np.zeros(env.action_space.shape, int))[0]
        assert np.shares_memory(first, second) and not np.array_equal(first, before)

    def test_seeds(self, make, spaces):
        one, other = make(8, seed=3), make(8)
        assert same(one.reset()[0], other.reset(seed=3)[0])
        assert one.np_random_seed == other.np_random_seed == 3
        assert isinstance(one.np_random, np.random.Generator)
        for _ in range(30):
            actions = one.action_space.sample()
            assert all(map(same, one.step(actions), other.step(actions)))
        again, different = one.reset(seed=3)[0], other.reset()[0]
        assert same(again, make(8, seed=3).reset()[0]) and not same(again, different)
        assert not same(make(8, seed=4).reset()[0], again)
        own = make(8)
        own.np_random = np.random.default_rng(7)
        assert own.reset() and own.np_random_seed == -1

    def test_what_is_drawn(self, make):
        """The documented order of draws gives the first boards and the words."""
        from arena_rules import Games
        from arena_rules.starts import layouts

        env = make(6, seats=2, min_food=3)
        env.reset(seed=11)
        rng = np.random.Generator(np.random.PCG64(11))
        starts, food = layouts(rng, 11, 11, 2, "standard")
        games, drawn = Games(6, seats=2, min_food=3), rng.integers(0, 1024, 4096)[:6]
        games.start(starts[drawn], food[drawn])
        assert bytes(games.memory) == bytes(env.games.memory)
        env.step(np.zeros(env.action_space.shape, int))
        words = rng.integers(0, 1 << 32, (682, 6, 2), np.uint32)
        games.step(np.zeros((6, 2), int), words[0])
        assert bytes(games.memory) == bytes(env.games.memory)
        env.step(np.ones(env.action_space.shape, int))
        games.step(np.ones((6, 2), int), words[1])
        assert bytes(games.memory) == bytes(env.games.memory) and games.turns.all()

    def test_actions_of_each_type(self, make):
        env = make(3, seed=1, seats=2)
        env.reset()
        for number, dtype in enumerate(("u1", "i1", "i4", "i8", "u8", ">i2")):
            env.step(np.full(env.action_space.shape, 3 * (number % 2), dtype))
            assert set(env.core.moves.ravel().tolist()) == {3 * (number % 2)}
        env.step([[1, 2]] * 3 if make.__name__ == "VectorEnv" else [1, 2] * 3)
        assert env.core.moves.tolist() == [[1, 2]] * 3
        with pytest.raises(ValueError, match="may be 0 to 3"):
            env.step(np.full(env.action_space.shape, (1 << 64) - 1, "u8"))

    def test_refusals(self, make, rules):
        env = make(2, seats=2)
        shape = env.action_space.shape
        with pytest.raises(RuntimeError, match="call reset"):
            env.step(np.zeros(shape, int))
        env.reset(seed=1)
        before = bytes(env.games.memory)
        for actions, kind, words in (
            (np.full(shape, 1.9), TypeError, "actions are of the type float64"),
            (np.zeros(shape, bool), TypeError, "bool"),
            (np.full(shape, 7), ValueError, "actions are 7 to 7, and may be 0 to 3"),
            (np.full(shape, -1), ValueError, "actions are -1 to -1"),
            (np.zeros((9, 2), int), ValueError, "actions have the shape"),
        ):
            with pytest.raises(kind, match=words):
                env.step(actions)
        assert bytes(env.games.memory) == before
        for more in (dict(num_envs=2), dict(seats=9), dict(render_mode="human"), dict(words=33)):
            with pytest.raises((TypeError, ValueError)):
                make(2, **more)
        with pytest.raises(ValueError, match="num_envs is 0"):
            make(0)
        with pytest.raises(ValueError, match="options"):
            env.reset(options={"mask": 1})
        with pytest.raises(ValueError, match="seats is 8, and may be 1 to 4"):
            make(1, seats=8, width=3, height=3)

    def test_render(self, make):
        env = make(2, seats=2, width=7, height=7, seed=1)
        env.reset()
        assert env.render() is None
        text = make(2, seats=2, width=7, height=7, seed=1, render_mode="ansi")
        text.reset()
        frames = text.render()
        assert len(frames) == text.num_envs
        assert frames[0].startswith("turn 0\n") and frames[0].count("\n") == 8
        assert all(frames[0].count(it) == 1 for it in "AB") and frames[0].count("*") == 3
        pictures = make(2, seats=2, width=7, height=9, seed=1, render_mode="rgb_array")
        pictures.reset()
        frame = pictures.render()[-1]
        assert frame.shape == (9 * 16, 7 * 16, 3) and frame.dtype == np.uint8

    def test_close(self, make):
        before = threading.active_count()
        env = make(4, seed=1, threads=2)
        env.reset()
        assert threading.active_count() > before
        env.close()
        assert threading.active_count() == before
        env.close()
        assert env.closed is True

    @pytest.mark.parametrize("mode", MODES)
    def test_modes_and_food(self, make, mode):
        seats = 1 if mode == "solo" else 3
        env = make(20, seed=1, seats=seats, mode=mode, min_food=4, food_chance=50)
        env.reset()
        for _ in range(30):
            env.step(env.action_space.sample())
        settings = env.games.states["head"]["settings"]
        assert (settings["mode"] == MODES.index(mode)).all()
        foods = [len(env.games.food(game)) for game in range(20)]
        turns = env.games.turns
        if mode == "constrictor":
            assert foods == [0] * 20
        else:
            assert all(it >= 4 for it, turn in zip(foods, turns) if turn > 2)


class TestVectorEnv:
    """Autoreset, rewards and observations, against the games' own states."""

    def test_a_long_play(self, rules):
        env = rules.VectorEnv(200, seed=5)
        seen, infos = env.reset()
        ended, ends = np.zeros(200, bool), 0
        rng = np.random.default_rng(1)
        for _ in range(60):
            before, was_alive = env.games.turns.copy(), env.games.alive.copy()
            moves = rng.integers(0, 4, (200, 4))
            seen, rewards, over, cut, infos = env.step(moves)
            games = env.games
            assert (games.turns == np.where(ended, 0, before + 1)).all()
            assert (games.over == over).all() and not cut.any()
            assert (infos["turn"] == games.turns).all() and (infos["alive"] == games.alive).all()
            assert (infos["cause"] == games.causes).all()
            died = was_alive & ~games.alive & ~ended[:, None]
            last = games.alive & over[:, None]
            assert (rewards == last * 1.0 - died).all()
            self.check_seen(games, seen)
            ended, ends = over, ends + int(over.sum())
        assert ends > 200

    @staticmethod
    def check_seen(games, seen):
        """What is seen, from the lists of one game and the seats of all."""
        alive = games.alive
        assert (seen[:, 5:9] == (games.health * alive)[:, :, None, None]).all()
        assert (seen[:, 9:] == (games.lengths * alive)[:, :, None, None]).all()
        wanted = np.zeros((5, 11, 11), "u1")
        for x, y in games.food(7):
            wanted[0, y, x] = 1
        for seat in np.flatnonzero(alive[7]):
            body = games.body(7, seat)
            for number, (x, y) in reversed(list(enumerate(body))):
                wanted[1 + seat, y, x] = len(body) - number
        assert (seen[7, :5] == wanted).all()

    def test_the_last_turn_is_a_truncation(self, rules):
        env = rules.VectorEnv(2, seed=1, seats=2)
        env.reset()
        env.games.turns[0] = 9_999
        env.core.look()
        _, rewards, over, cut, infos = env.step(np.zeros((2, 2), int))
        assert not over[0] and cut.tolist() == [True, False]
        _, _, over, cut, infos = env.step(np.zeros((2, 2), int))
        assert infos["turn"][0] == 0 and not cut.any() and not over[0]

    def test_without_planes(self, rules):
        env = rules.VectorEnv(3, seed=1, observe=False)
        seen, _ = env.reset()
        assert not seen.any() and seen.shape == (3, 13, 11, 11)
        few, all_ = rules.VectorEnv(3, seed=1, scalars=False), rules.VectorEnv(3, seed=1)
        assert few.single_observation_space.shape == (5, 11, 11)
        assert np.array_equal(few.reset()[0], all_.reset()[0][:, :5])
        actions = np.ones((3, 4), int)
        assert np.array_equal(few.step(actions)[0], all_.step(actions)[0][:, :5])


class TestSeatEnv:
    """The same games by seats."""

    def test_against_the_vector_env(self, rules):
        seats, whole = rules.SeatEnv(40, seed=2, seats=3), rules.VectorEnv(40, seed=2, seats=3)
        seen, _ = seats.reset()
        all_, _ = whole.reset()
        order = [[0, 1, 2], [1, 0, 2], [2, 0, 1]]
        rng = np.random.default_rng(1)
        for _ in range(50):
            seen = seen.reshape(40, 3, 10, 11, 11)
            for own in range(3):
                assert (seen[:, own, 0] == all_[:, 0]).all()
                for place, other in enumerate(order[own]):
                    for first in (1, 4, 7):  # snakes, health, lengths
                        mine, theirs = seen[:, own, first + place], all_[:, first + other]
                        assert (mine == theirs).all()
            actions = rng.integers(0, 4, 120)
            seen, rewards, _, _, infos = seats.step(actions)
            all_, wanted, _, _, _ = whole.step(actions.reshape(40, 3))
            assert (rewards.reshape(40, 3) == wanted).all()

    def test_each_seat_ends_once(self, rules):
        env = rules.SeatEnv(30, seed=3, seats=3)
        _, infos = env.reset()
        assert not infos["waiting"].any()
        ended = np.zeros(90, bool)
        rng, ends = np.random.default_rng(1), 0
        for _ in range(80):
            _, rewards, terminations, cut, infos = env.step(rng.integers(0, 4, 90))
            begun = infos["turn"] == 0
            ended &= ~begun
            assert not (terminations & ended).any() and not cut.any()
            assert (infos["waiting"] == ended & ~begun).all()
            assert (rewards[infos["waiting"]] == 0).all()
            assert (rewards[terminations & ~infos["alive"]] == -1).all()
            assert (rewards[terminations & infos["alive"]] == 1).all()
            assert (rewards[~terminations] == 0).all()
            ended |= terminations
            ends += terminations.sum()
        assert ends > 100

    def test_the_last_turn(self, rules):
        env = rules.SeatEnv(1, seed=1, seats=2)
        env.reset()
        env.games.turns[0] = 9_999
        _, _, ended, cut, _ = env.step(np.zeros(2, int))
        assert (ended.tolist(), cut.tolist()) == ([False, False], [True, True])
        _, _, ended, cut, infos = env.step(np.zeros(2, int))
        assert not ended.any() and not cut.any() and not infos["waiting"].any()


class TestStarts:
    """First boards are those that the ladder can draw."""

    @pytest.fixture
    def ladder(self):
        sys.path.append(str(ROOT / "ladder/src"))
        from arena_ladder.game import starts

        return starts

    def test_fixed_boards(self, rules, ladder):
        from arena_rules import starts

        rng = np.random.default_rng(1)
        for side in range(7, 26):
            for seats in (1, 2, 4, 5, 8):
                heads, food = starts.layouts(rng, side, side, seats, "standard")
                spots = {tuple(cell) for cell in starts.fixed_cells(side).tolist()}
                corners = set(map(tuple, starts.fixed_cells(side)[:4].tolist()))
                for own, fed in zip(heads[:20].tolist(), food[:20].tolist()):
                    own, fed = list(map(tuple, own)), list(map(tuple, fed))
                    assert set(own) <= spots and len(set(own)) == seats
                    assert len({cell in corners for cell in own[:4]}) == 1
                    assert len(set(fed)) == len(fed) and fed[-1] == ladder.centre_of(side, side)
                    assert len(fed) == (1 if seats > 4 and side < 11 else 1 + seats)
                    for head, cell in zip(own, fed[:-1]):
                        near = ladder.food_near(ladder.Cell(*head), side, side)
                        assert cell in {tuple(it) for it in near} and len(near) == 2

    def test_each_start_of_the_ladder_is_drawn(self, rules, ladder):
        from arena_ladder.game.draws import Draw
        from arena_rules import starts

        heads, food = starts.layouts(np.random.default_rng(2), 11, 11, 2, "standard")
        drawn = {(own.tobytes(), fed.tobytes()) for own, fed in zip(heads, food)}
        theirs = set()
        for number in range(300):
            draw = Draw("seed", number)
            cells = ladder.start_cells(draw, 11, 11, 2)
            fed = ladder.first_food(draw, 11, 11, cells)
            theirs.add((np.array(cells, "u1").tobytes(), np.array(fed, "u1").tobytes()))
        assert theirs <= drawn and len(drawn) == 96 and len(theirs) > 80

    def test_drawn_boards(self, rules, ladder):
        from arena_rules import starts

        rng = np.random.default_rng(1)
        for width, height, seats in ((3, 3, 2), (3, 4, 1), (6, 6, 8), (7, 9, 4), (25, 11, 8)):
            heads, food = starts.layouts(rng, width, height, seats, "standard")
            even = {tuple(cell) for cell in ladder.even_cells(width, height)}
            assert starts.most_seats(width, height) == min(8, ladder.most_snakes(width, height))
            for own, fed in zip(heads[:50].tolist(), food[:50].tolist()):
                assert {tuple(it) for it in own} <= even and len({tuple(it) for it in own}) == seats
                assert len({tuple(it) for it in fed}) == len(fed) <= seats
                for x, y in fed:
                    assert all(abs(x - a) + abs(y - b) > 1 for a, b in own)

    def test_no_food_in_constrictor(self, rules):
        env = rules.VectorEnv(3, seed=1, mode="constrictor", seats=2)
        seen, _ = env.reset()
        assert not seen[:, 0].any() and not env.games.over.any()


class TestParallelEnv:
    """What pettingzoo.ParallelEnv documents."""

    def test_attributes(self, rules, spaces):
        env = rules.ParallelEnv(seed=1, seats=3, width=7, height=7)
        assert isinstance(env, spaces.ParallelBase)
        assert env.metadata["name"] == "arena_rules"
        assert env.metadata["render_modes"] == ["rgb_array", "ansi"]
        assert env.possible_agents == ["snake_0", "snake_1", "snake_2"] and env.agents == []
        assert (env.max_num_agents, env.num_agents) == (3, 0)
        assert env.unwrapped is env and env.render_mode is None
        for agent in env.possible_agents:
            assert env.observation_space(agent) is env.observation_space(agent)
            assert env.action_space(agent) is env.action_space(agent)
            assert env.observation_spaces[agent].shape == (10, 7, 7)
            assert env.action_spaces[agent] == spaces.Discrete(4)

    def test_whole_games(self, rules):
        env = rules.ParallelEnv(seed=1, seats=3, width=7, height=7)
        rng, ends = np.random.default_rng(1), set()
        for game in range(20):
            seen, infos = env.reset(seed=game)
            assert list(seen) == list(infos) == env.agents == env.possible_agents
            total = dict.fromkeys(env.agents, 0.0)
            while env.agents:
                agents = list(env.agents)
                answers = env.step({agent: int(rng.integers(4)) for agent in agents})
                seen, rewards, ended, cut, infos = answers
                assert all(list(it) == agents for it in answers)
                assert all(seen[agent] in env.observation_space(agent) for agent in agents)
                assert env.state() in env.state_space
                for agent in agents:
                    total[agent] += rewards[agent]
                    lives = infos[agent]["alive"]
                    assert lives == (infos[agent]["cause"] is None)
                    ends.add(infos[agent]["cause"])
                assert env.agents == [it for it in agents if not ended[it] and not cut[it]]
            assert sorted(total.values()) in ([-1, -1, -1], [-1, -1, 1])
        assert {"wall-collision", "snake-self-collision", None} <= ends

    def test_the_cause_and_the_killer(self, rules):
        env = rules.ParallelEnv(seed=1, seats=2)
        env.reset()
        env.games.start([(5, 5), (7, 5)])
        _, rewards, _, _, infos = env.step({"snake_0": 3, "snake_1": 2})
        assert rewards == {"snake_0": -1.0, "snake_1": -1.0}
        assert infos["snake_0"]["cause"] == "head-collision"
        assert infos["snake_0"]["killer"] == "snake_1" and env.agents == []

    def test_seeds_and_refusals(self, rules):
        one, other = rules.ParallelEnv(seed=4), rules.ParallelEnv()
        with pytest.raises(RuntimeError, match="call reset"):
            one.step({})
        assert all(map(same, one.reset()[0].values(), other.reset(seed=4)[0].values()))
        before = bytes(one.games.memory)
        for actions, kind in (({"snake_0": 7}, ValueError), ({"snake_0": 1.9}, TypeError)):
            with pytest.raises(kind, match="the action of snake_0"):
                one.step(actions)
        with pytest.raises(ValueError, match="'worm'"):
            one.step({"worm": 1})
        assert bytes(one.games.memory) == before
        kept = one.reset()[0]
        copies = copy.deepcopy(kept)
        one.step({"snake_0": 0})
        assert all(same(kept[agent], copies[agent]) for agent in kept)

    def test_render_and_close(self, rules):
        env = rules.ParallelEnv(seed=1, render_mode="ansi", width=7, height=7)
        env.reset()
        assert env.render().startswith("turn 0\n") and "A" in env.render()
        env.close()
        picture = rules.ParallelEnv(seed=1, render_mode="rgb_array", width=7, height=7)
        picture.reset()
        assert picture.render().shape == (112, 112, 3)


class TestThreads:
    """Any number of threads plays the same games, and so does each game alone."""

    def test_threads(self, rules):
        from arena_rules.starts import layouts

        starts, food = (it[:200] for it in layouts(np.random.default_rng(1), 11, 11, 4, "standard"))
        all_games = [rules.Games(200, threads=threads) for threads in (1, 2, 3, 7)]
        for games in all_games:
            assert games.start(starts, food) == 200
        rng = np.random.default_rng(2)
        for _ in range(30):
            moves = rng.integers(0, 5, (200, 4), "u1")
            words = rng.integers(0, 1 << 32, (200, 2), "u4")
            twin = all_games[0].copy()
            for games in all_games:
                games.step(moves, words)
            for at in range(0, 200, 37):
                one = rules.Games(1)
                one.states[0] = twin.states[at]
                one.step(moves[at], words[at])
                assert one.states[0] == all_games[0].states[at]
        assert len({bytes(games.memory) for games in all_games}) == 1
        for games in all_games:
            games.close()


class TestSpaces:
    """The stand-ins behave as gymnasium's documentation says."""

    @pytest.fixture
    def mine(self, library):
        from arena_rules import standins

        return standins

    def test_discrete(self, mine):
        space = mine.Discrete(4, seed=1)
        assert (space.n, space.start, space.shape, space.dtype) == (4, 0, (), np.int64)
        assert all(space.sample() in space for _ in range(50)) and repr(space) == "Discrete(4)"
        assert 3 in space and np.int8(0) in space
        assert 4 not in space and -1 not in space and 1.0 not in space and True not in space
        assert space.sample(mask=np.array([0, 0, 1, 0], "i1")) == 2
        assert space == mine.Discrete(4) and space != mine.Discrete(5)

    def test_multi_discrete(self, mine):
        space = mine.MultiDiscrete([4, 4], seed=1)
        assert (space.shape, space.dtype) == ((2,), np.int64) and space.nvec.tolist() == [4, 4]
        assert space.sample() in space and np.array([0, 3]) in space
        assert np.array([0, 4]) not in space and np.array([1]) not in space
        assert np.array([0.0, 1.0]) not in space

    def test_box(self, mine):
        space = mine.Box(0, 255, (2, 3), "uint8", seed=1)
        assert (space.shape, space.dtype) == ((2, 3), np.uint8)
        assert (space.low == 0).all() and (space.high == 255).all()
        assert space.sample() in space and space.sample().dtype == np.uint8
        assert np.zeros((2, 3), "u1") in space and np.zeros((3, 2), "u1") not in space
        assert np.zeros((2, 3)) not in space
        assert space == mine.Box(0, 255, (2, 3), "uint8") != mine.Box(0, 9, (2, 3), "uint8")

    def test_batches(self, mine):
        assert mine.batch_space(mine.Discrete(4), 3) == mine.MultiDiscrete([4, 4, 4])
        assert mine.batch_space(mine.Box(0, 9, (2,), "uint8"), 3).shape == (3, 2)
        nested = mine.batch_space(mine.MultiDiscrete([4, 4]), 3)
        assert nested.shape == (3, 2) and (nested.high == 3).all() and nested.sample() in nested

    def test_seeds(self, mine):
        one, other = mine.generator(5)[0], np.random.Generator(np.random.PCG64(5))
        assert one.random() == other.random()
        assert mine.generator(5)[1] == 5 and mine.generator(None)[1] is not None
        for seed in (-1, 1.5, "1"):
            with pytest.raises(ValueError, match="seed is"):
                mine.generator(seed)
