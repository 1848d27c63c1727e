"""The pairings: the games of a ladder, which depend on its configuration alone."""

from __future__ import annotations

import argparse
import re
from collections.abc import Iterable, Iterator, Sequence
from dataclasses import dataclass
from itertools import combinations, islice

from arena_ladder.game.config import Config, ConfigFault
from arena_ladder.game.draws import Draw

GAME_NAME = re.compile(r"r[0-9]{4,12}-t[0-9]{3,7}")
MOST_GAMES = 1_000_000


@dataclass(frozen=True)
class Fixture:
    """A game to be played: its name, its round, and the bots in the order of their seats.

    What is drawn for it depends on `key`, which is its name, but for the second game of a pair.
    """

    name: str
    round: int
    bots: tuple[str, ...]
    first: str = ""  # of a pair, the name of the first game

    @property
    def key(self) -> str:
        return self.first or self.name


@dataclass(frozen=True)
class Part:
    """Part `number` of `parts`, from 1: every `parts`-th game, from the `number`-th on."""

    number: int
    parts: int

    def __str__(self) -> str:
        return f"part-{self.number}-of-{self.parts}"


def part_of(word: str) -> Part:
    """Parses `K/N`."""
    found = re.fullmatch(r"([0-9]{1,5})/([0-9]{1,5})", word)
    part = Part(int(found[1]), int(found[2])) if found else Part(0, 0)
    if not 1 <= part.number <= part.parts:
        raise argparse.ArgumentTypeError(f"{word!r} is not a part, such as 2/4")
    return part


def fixtures_of(config: Config, part: Part = Part(1, 1)) -> list[Fixture]:
    """The games of a ladder, round by round, or a part of them."""
    games = list(islice(all_fixtures(config), MOST_GAMES + 1))
    if len(games) > MOST_GAMES:
        raise ConfigFault(f"the pairings have more than {MOST_GAMES:,} games")
    return games[part.number - 1 :: part.parts]


def all_fixtures(config: Config) -> Iterator[Fixture]:
    names = [bot.name for bot in config.bots]
    if config.pairing == "gauntlet":
        yield from gauntlet(names, config)
        return
    paired = every_table if config.pairing == "round_robin" else drawn_tables
    rounds: Iterator[Iterable[Iterable[str]]] = paired(names, config)
    for number, tables in enumerate(rounds, 1):
        for at, table in enumerate(tables, 1):
            name = f"r{number:04}-t{at:03}"
            yield Fixture(name, number, tuple(Draw(config.seed, name, "seats").shuffled(table)))


def gauntlet(names: Sequence[str], config: Config) -> Iterator[Fixture]:
    """Pairs of games of the first bot and each other one, with the seats changed, once a round."""
    first, *others = names
    for number in range(1, config.rounds + 1):
        for at, other in enumerate(others):
            one, two = (f"r{number:04}-t{2 * at + part:03}" for part in (1, 2))
            bots = Draw(config.seed, one, "seats").shuffled((first, other))
            yield Fixture(one, number, tuple(bots))
            yield Fixture(two, number, tuple(reversed(bots)), one)


def pair_of(name: str) -> int:
    """The number of a pair of a gauntlet of two bots, from 0, by the name of one of its games."""
    return int(name[1:].partition("-")[0]) - 1


def every_table(names: Sequence[str], config: Config) -> Iterator[Iterable[Iterable[str]]]:
    """Every combination of `config.snakes` bots, once a round, in an order by turns."""
    tables = circle if config.snakes == 2 else orbits
    for _ in range(config.rounds):
        yield ([names[at] for at in table] for table in tables(len(names), config.snakes))


def circle(count: int, _: int) -> Iterator[tuple[int, ...]]:
    """All pairs of numbers below `count`, by the circle method.

    All sit round a table, and each plays the one opposite; then all but the last one move on by a
    seat. So everybody plays once in each of these circles; with an odd number one sits out.
    """
    turning = count - 1 + count % 2
    for turn in range(turning):
        if count % 2 == 0:
            yield turn, count - 1
        for off in range(1, (turning + 1) // 2):
            yield (turn - off) % turning, (turn + off) % turning


def orbits(count: int, size: int) -> Iterator[tuple[int, ...]]:
    """All combinations of `size` numbers below `count`, each followed by those shifted from it.

    So in any `count` games in a row each number occurs about as often.
    """
    for others in combinations(range(1, count), size - 1):
        table = (0, *others)
        turned = [tuple(sorted((it - base) % count for it in table)) for base in table]
        if min(turned) == table:
            for shift in range(count // turned.count(table)):
                yield tuple((it + shift) % count for it in table)


def drawn_tables(names: Sequence[str], config: Config) -> Iterator[Iterable[Iterable[str]]]:
    """As many drawn tables a round as can be filled; the bots that played most sit out."""
    size = config.snakes
    played = dict.fromkeys(names, 0)
    for number in range(1, config.rounds + 1):
        draw = Draw(config.seed, "round", number)
        order = sorted(draw.shuffled(names), key=played.__getitem__)
        seated = draw.shuffled(order[: len(order) // size * size])
        for name in seated:
            played[name] += 1
        yield [seated[at : at + size] for at in range(0, len(seated), size)]
