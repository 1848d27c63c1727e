#!/usr/bin/env python3
"""Writes the command file of a round robin: each two of the given bots meet once a round, in a
game of two snakes.

    examples/round_robin.py [--turns N] [--rounds N] [--seed N] [--open N] BOT.moves .. > FILE

A bot is a file of its moves: the words up, down, left and right, from the first turn on. After the
last word the bot starts again at the first; # starts a comment. Its name is the name of the file
without the ending. All games are played at once, turn by turn. The numbers that decide where food
appears are drawn from the seed, so the same command line gives the same file. A line on the
standard error reports the number of blocks that the games need, or that a plan can't have this
number of games: then examples/split.py splits the file.

With --open the file has version 3 and its plan no game: N games are admitted, play all their turns
and leave, then the next N. Each game has the same moves and numbers as without --open.
"""
import argparse
import json
import random
import sys
from itertools import combinations, cycle, islice
from pathlib import Path

DIRECTIONS = ("up", "down", "left", "right")
SIDE = 11  # cells
STARTS = ({"x": 3, "y": 5}, {"x": 7, "y": 5})
FOOD = [{"x": 5, "y": 8}]
QUOTA = 1_835_007  # the largest quota of a game that needs only six blocks
MOST_GAMES = 64
LONGEST_NAME = 64  # bytes
WORDS = 2  # of a move: one for the chance of food, one for its place


def line(**members):
    return json.dumps(members, separators=(",", ":"), ensure_ascii=False)


def moves_of(text):
    """The moves of a bot's file, without the comments."""
    moves = [move for row in text.splitlines() for move in row.split("#")[0].split()]
    unknown = [move for move in moves if move not in DIRECTIONS]
    if unknown:
        raise ValueError(f"'{unknown[0]}' is none of {', '.join(DIRECTIONS)}")
    if not moves:
        raise ValueError("there is no move")
    return moves


def pairings(names):
    """Each two names once. The first of a pair starts on the left; the sides alternate, so that no
    bot always starts there."""
    pairs = []
    for (one, a), (other, b) in combinations(enumerate(names), 2):
        pairs.append((a, b) if (one + other) % 2 else (b, a))
    return pairs


def named_games(names, rounds):
    """The two bots of each game by its name. They change sides with each round.

    From the second round on the name ends with the number of the round.
    """
    games = {}
    for at in range(1, rounds + 1):
        for a, b in pairings(names):
            left, right = (a, b) if at % 2 else (b, a)
            games[f"{left}-{right}" if at == 1 else f"{left}-{right}-{at}"] = (left, right)
    return games


def blocks_for(games, quota=QUOTA):
    """The blocks that `games` games of that quota need, by docs/FORMATS.md."""
    return games * (quota // 1_835_008 + 2 + 4)


def batches(names, most):
    names = iter(names)
    return iter(lambda: list(islice(names, most)), [])


def command_lines(bots, turns, seed, rounds=1, most_open=None):
    """The lines of the file. `bots` has the moves of each bot by its name. With `most_open` at most
    that many games are open at once."""
    draw = random.Random(seed)
    games = named_games(sorted(bots), rounds)
    for name in games:
        if len(name.encode()) > LONGEST_NAME:
            raise ValueError(f"the name of the game {name} has more than {LONGEST_NAME} bytes")
    if not games:
        raise ValueError("there is no game: a round wants two bots or more")
    if len(games) != rounds * len(bots) * (len(bots) - 1) // 2:
        raise ValueError("two games have the same name")
    played = {bot: list(islice(cycle(moves), turns)) for bot, moves in bots.items()}
    # Drawn for all games at once, so that a game's numbers do not depend on which others are open.
    words = [
        {name: [draw.getrandbits(32) for _ in range(WORDS)] for name in games} for _ in range(turns)
    ]
    rows = [] if most_open else [{"game": name, "quota": QUOTA} for name in games]
    yield line(games=rows, version=3) if most_open else line(games=rows)
    for some in batches(games, most_open or len(games)):
        for name in some:
            if most_open:
                yield line(game=name, do="admit", quota=QUOTA)
            snakes = [{"id": id, **start} for id, start in zip(games[name], STARTS)]
            yield line(
                game=name,
                do="new",
                mode="standard",
                width=SIDE,
                height=SIDE,
                snakes=snakes,
                food=FOOD,
            )
        for turn in range(turns):
            for name in some:
                moves = {id: played[id][turn] for id in games[name]}
                yield line(game=name, do="move", moves=moves, words=words[turn][name])
        for name in some if most_open else []:
            yield line(game=name, do="leave")


def read_bots(paths):
    bots = {}
    for path in paths:
        if path.stem in bots:
            raise ValueError(f"two bots are named {path.stem}")
        try:
            bots[path.stem] = moves_of(path.read_text())
        except ValueError as fault:
            raise ValueError(f"{path}: {fault}") from None
    return bots


def summary(games, turns, most_open=None):
    """The line for the standard error about a file of `games` games."""
    size = f"{games} game{'s' * (games != 1)} of {turns} move{'s' * (turns != 1)}"
    if games > MOST_GAMES and not most_open:
        many = f"a plan has at most {MOST_GAMES}"
        return f"{size}: {many}, so give it to examples/split.py, or use --open"
    blocks = blocks_for(min(games, most_open) if most_open else games)
    at_once = f", {most_open} at once" if most_open else ""
    return f"{size}{at_once}: arena serve needs --blocks {blocks} or more"


def open_games(word):
    most = int(word)
    if not 1 <= most <= MOST_GAMES:
        raise argparse.ArgumentTypeError(f"1 to {MOST_GAMES} games can be open at once")
    return most


def main():
    parser = argparse.ArgumentParser(
        description=__doc__, formatter_class=argparse.RawDescriptionHelpFormatter
    )
    parser.add_argument("bots", nargs="+", metavar="BOT.moves", type=Path)
    parser.add_argument(
        "--turns", type=int, default=150, help="moves that each game is given, 150 if left out"
    )
    parser.add_argument("--rounds", type=int, default=1, help="1 if left out")
    parser.add_argument(
        "--seed", type=int, default=1, help="of the numbers for food, 1 if left out"
    )
    parser.add_argument(
        "--open", metavar="N", type=open_games, help="games open at once, in a file of version 3"
    )
    given = parser.parse_args()
    try:
        bots = read_bots(given.bots)
        lines = list(command_lines(bots, given.turns, given.seed, given.rounds, given.open))
    except (OSError, ValueError) as fault:
        sys.exit(f"round_robin: {fault}")
    print("\n".join(lines))
    print(summary(given.rounds * len(pairings(bots)), given.turns, given.open), file=sys.stderr)


if __name__ == "__main__":
    main()
