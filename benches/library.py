#!/usr/bin/env python3
"""Times the library from C, Rust and Python, beside a simulator by hand and plain Python, on 500
drawn games of four snakes, or of two or eight, on 11 by 11 cells.

    benches/library.py [--games N] [--runs R] [--seconds S] [--snakes 2|4|8] [--only PART..]

PART is c, rust, python or environments; with other than four snakes it is c alone. It needs gcc,
for Rust cargo, for Python numpy, and bindings/build to have been run. The times are of the
processor (those of several threads of wall time, S seconds each), the least of R runs.
"""
import argparse
import random
import subprocess
import tempfile
import time
from array import array

from paths import ROOT  # first: it lets the next be found
import library_games
from simulators import plain

SIMULATORS = ROOT / "benches/simulators"
BUILT = ROOT / "out/bindings/BUILT"
SPOTS = [(1, 1), (1, 9), (9, 1), (9, 9), (1, 5), (5, 1), (5, 9), (9, 5)]
MOST_TURNS = 400
ROYALE = {"map": "royale"}


def drawn_game(number, snakes):
    """A game of snakes that mostly keep alive, to its end or to turn 400."""
    rng = random.Random(f"bench {number}")
    setup = {"mode": "standard", "width": 11, "height": 11, "starts": rng.sample(SPOTS, snakes)}
    setup |= {"food": [(5, 5), (5, 3)], "min_food": 1, "food_chance": 15}
    games = library_games.one_game(setup)
    game = library_games.Game(setup, games.record(0), 2, MOST_TURNS)
    while not games.is_over(0) and len(game.turns) < MOST_TURNS:
        moves = bytes(
            rng.choice(library_games.free_steps(rng, games.memory[0], seat) or [0])
            for seat in range(snakes)
        )
        words = [rng.getrandbits(32), rng.getrandbits(32)]
        games.step(moves, array("I", words))
        game.turns.append(library_games.Turn(moves, words, games.record(0)))
    return game


def time_plain(games):
    """Seconds of processor time a turn in plain Python."""
    from_, turns = time.process_time(), 0
    for game in games:
        setup = game.setup
        own = plain.Game(11, 11, setup["starts"], setup["food"], 1, 15)
        for turn in game.turns:
            own.step(turn.moves, turn.words)
        turns += len(game.turns)
    return (time.process_time() - from_) / turns


def say(what, each):
    print(f"{what:<34} {each * 1e9:7.1f} ns a turn, {1e-6 / each:6.2f} M a second", flush=True)


def least(call, turns, runs):
    """Seconds of processor time a turn, the least of the runs; `call` plays `turns`."""
    best = 1e9
    for _ in range(runs):
        from_ = time.process_time()
        call()
        best = min(best, time.process_time() - from_)
    return best / turns


def side_by_side(games, runs):
    """All games at once, from Python."""
    import numpy as np

    games = sorted(games, key=lambda game: -len(game.turns))
    rules, turns = library_games.one_game(games[0].setup), sum(len(it.turns) for it in games)
    rules = type(rules)(len(games), seats=4)
    starts = np.array([it.setup["starts"] for it in games], "u1")
    food = np.array([it.setup["food"] for it in games], "u1")
    orders = []
    for turn in range(len(games[0].turns)):
        alive = [it.turns[turn] for it in games if len(it.turns) > turn]
        moves, words = np.zeros((len(games), 4), "u1"), np.zeros((len(games), 2), np.uint32)
        for at, it in enumerate(alive):
            moves[at], words[at] = list(it.moves), it.words
        orders.append((moves, words))

    def play():
        rules.start(starts, food)
        for moves, words in orders:
            rules.step(moves, words)

    return least(play, turns, runs)


def one_after_the_other(games, runs):
    """One game at a time, and one record at a time, from Python."""
    import numpy as np
    from arena_rules import records

    rules = [library_games.one_game(it.setup) for it in games]
    orders = [
        [(np.frombuffer(it.moves, "u1"), np.array(it.words, np.uint32)) for it in game.turns]
        for game in games
    ]
    firsts, turns = [it.copy() for it in rules], sum(len(it.turns) for it in games)

    def play():
        for one, first, each in zip(rules, firsts, orders):
            one.memory[0] = first.memory[0]
            for moves, words in each:
                one.step(moves, words)

    def play_records():
        for game in games:
            record = game.first
            for it in game.turns:
                record = records.turn(record, it.moves, it.words)

    return least(play, turns, runs), least(play_records, turns, runs)


def time_env(kind, count, runs, threads=1, **more):
    """Seconds of a game's turn: of processor time, with several threads of wall time."""
    import arena_rules
    import numpy as np

    clock = time.process_time if threads == 1 else time.perf_counter
    env = getattr(arena_rules, kind)(count, seed=1, threads=threads, **more)
    env.reset()
    rng, best = np.random.Generator(np.random.SFC64(2)), 1e9
    turns = max(5, min(400, 40_000 // count))
    actions = rng.integers(0, 4, (turns, *env.action_space.shape))
    for _ in range(runs):
        from_ = clock()
        for it in actions:
            env.step(it)
        best = min(best, clock() - from_)
    return best / turns / count


def time_rust(file, runs):
    """What the Rust crate takes, by the name of the kind of call."""
    crate = ROOT / "bindings/rust"
    build = ["cargo", "build", "--offline", "--release", "--quiet", "--example", "bench"]
    subprocess.run(build, cwd=crate, check=True)
    program = crate / "target/release/examples/bench"
    said = subprocess.run([program, file, str(runs)], check=True, capture_output=True, text=True)
    for line in said.stdout.splitlines():
        name, each = line.split("\t")
        say(f"Rust: {name}", float(each))


def time_c(file, folder, given):
    """What C and the simulator by hand take."""
    here, library = SIMULATORS, ROOT / "out/bindings/libarena.a"
    build = ["gcc", "-O3", "-march=x86-64-v2", f"-I{ROOT}/bindings/c", "-o", f"{folder}/bench"]
    subprocess.run([*build, here / "bench.c", library, "-lpthread"], check=True)
    bench = [f"{folder}/bench", file, str(given.runs), str(given.seconds)]
    subprocess.run(bench, check=True)


def time_python(games, runs):
    """What Python takes."""
    say("Python: all games side by side", side_by_side(games, runs))
    one, record = one_after_the_other(games[:100], runs)
    say("Python: one game", one)
    say("Python: one record", record)
    say("plain Python", time_plain(games[:100]))


def time_environments(runs):
    """What a step of the environments takes, for each of their games."""
    few = {"scalars": False}
    kinds = (("VectorEnv", {}), ("VectorEnv", few), ("SeatEnv", {}), ("VectorEnv", ROYALE))
    for kind, more in kinds:
        for count in (1, 64, 1024, 4096):
            each = time_env(kind, count, runs, **more)
            say(" ".join((kind, str(count), *(f"{it}={more[it]}" for it in more))), each)
    say("VectorEnv of 1,024, no planes", time_env("VectorEnv", 1024, runs, observe=False))
    say("VectorEnv of 16,384, 4 threads", time_env("VectorEnv", 16384, runs, 4))


def main():
    words = argparse.ArgumentParser(
        description=__doc__, formatter_class=argparse.RawDescriptionHelpFormatter
    )
    words.add_argument("--games", type=int, default=500)
    words.add_argument("--runs", type=int, default=20)
    words.add_argument("--seconds", type=float, default=1.0)
    words.add_argument("--snakes", type=int, choices=(2, 4, 8), default=4)
    parts = ("c", "rust", "python", "environments")
    words.add_argument("--only", metavar="PART", nargs="+", choices=parts, default=parts)
    given = words.parse_args()
    if given.snakes != 4:
        given.only = ["c"]
    games = [drawn_game(number, given.snakes) for number in range(given.games)]
    print("the library:", BUILT.read_text().splitlines()[-1].removeprefix("library: "))
    with tempfile.TemporaryDirectory() as folder:
        file = f"{folder}/games"
        library_games.write(games, file)
        if "c" in given.only:
            time_c(file, folder, given)
        if "rust" in given.only:
            time_rust(file, given.runs)
    if "python" in given.only:
        time_python(games, given.runs)
    if "environments" in given.only:
        time_environments(given.runs)


if __name__ == "__main__":
    main()
